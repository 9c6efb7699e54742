; Noise out of a table, filtered: a ramp read fast, and a low pass by biquad.
sr     = 44100
ksmps  = 32
nchnls = 1

instr 1
  aramp oscili p4, p5, 1
  alow  biquad aramp, .02, .04, .02, 1, -1.56, .64
  aenv  linen  alow, .05, p3, .3
  out aenv
endin
