; Two instruments that meet on named channels: one sets pitch and loudness, one plays them.
sr     = 44100
ksmps  = 64
nchnls = 1

instr 1
  kcps line p4, p3, p5
  chnset kcps, "cps"
  chnset 8000, "amp"
endin

instr 2
  kcps  chnget "cps"
  kamp  chnget "amp"
  asig oscili kamp, kcps, 1
  out asig
endin
