; Phase modulation: integ adds a frequency up to a place in a wave, and a second tone pushes the place to and fro.
sr     = 44100
ksmps  = 32
nchnls = 1

instr 1
  kfall  line   1, p3, 0
  kcps   linseg cpspch(p5) * .9, .05, cpspch(p5)
  astep = kcps * 1024 / sr               ; points of the table for each frame
  aplace integ  astep
  apush  oscili 300 * kfall * kfall, cpspch(p5) * 2, 1
  asig   tablei (aplace + apush + 1024) % 1024, 1
  out p4 * kfall * asig
endin
