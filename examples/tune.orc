; A tune of plucked tones: each note names its pitch as octave.step, and fades as long as it lasts.
sr     = 44100
ksmps  = 32
nchnls = 1

instr 1
  iamp  = p4
  icps  = cpspch(p5)
  aenv  linen  iamp, .01, p3, .08
  asig oscili aenv, icps, 1
  out asig
endin
