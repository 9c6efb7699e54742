; Held notes: a p3 below 0 lets a note sound until its stop.
sr     = 44100
ksmps  = 64
nchnls = 1

instr 1, 2
  kamp  linseg 0, 1, p4, 4, p4
  asig oscili kamp, p5, 1
  out asig
endin
