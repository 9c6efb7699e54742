; A tempo that rises from 60 to 240 in a minute of beats: clicks that come closer and closer.
sr     = 44100
ksmps  = 32
nchnls = 1

instr 1
  kenv  linseg p4, .02, 0, 1, 0
  asig oscili kenv, 1000, 1
  out asig
endin
