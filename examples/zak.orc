; Routing by zak places: generators write to places, a mixer with a filter of its own reads them.
sr     = 44100
ksmps  = 32
nchnls = 2
zakinit 4, 4

instr 1
  asig oscili p4, p5, 1
  zawm  asig, p6
endin

instr 2
  klfo  oscili .4, p4, 1
  zkw   klfo + .6, p5
endin

instr 50
  aleft  zar 1
  aright zar 2
  kleft  zkr 1
  kright zkr 2
  outs aleft * kleft, aright * kright
  zacl 1, 2
  zkcl 1, 2
endin
