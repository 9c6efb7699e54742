; A table is read by an index that moves along it: eight levels are a sequence of pitches.
sr     = 44100
ksmps  = 50
nchnls = 1

instr 1
  kstep phasor .5
  kcps  table  kstep * 8, 2
  asig oscili p4, kcps, 1
  out asig
endin
