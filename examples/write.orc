; A table that is written while others read it: one instrument draws a wave, another plays what stands there.
sr     = 44100
ksmps  = 32
nchnls = 1

instr 1
  kplace phasor 1
  kvalue oscili 1, p4, 1
  tablew kvalue, kplace * 1024, 2
endin

instr 2
  asig oscili p4, p5, 2
  out asig
endin
