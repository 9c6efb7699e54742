; An echo: notes add to a sound that all share, and instrument 99, which is performed last, plays it once more later.
sr     = 44100
ksmps  = 32
nchnls = 2
gaecho init 0

instr 1
  aenv  linen  p4, .005, p3, .1
  asig oscili aenv, p5, 1
  gaecho = gaecho + asig
  outs asig, asig
endin

instr 99
  alate delay gaecho, .3
  outs alate * .5, alate * .25
  gaecho = 0
endin
