; An arpeggiator: a note that makes no sound asks for four that follow one another, and for itself again.
sr     = 44100
ksmps  = 32
nchnls = 1

instr 1
  schedule 2, 0,    .25, p4, cpspch(p5)
  schedule 2, .25,  .25, p4, cpspch(p5) * 1.25
  schedule 2, .5,   .25, p4, cpspch(p5) * 1.5
  schedule 2, .75,  .25, p4, cpspch(p5) * 2
  if p6 > 0 then
    schedule 1, 1, 0, p4, p5, p6 - 1
  endif
endin

instr 2
  aenv  linen  p4, .01, p3, .1
  asig oscili aenv, p5, 1
  out asig
endin
