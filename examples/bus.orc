; A bus by name: a note asks for a chord, each tone mixes into the channel "bus", and instrument 50 sends the sum
; alternately to the left and to the right.
sr     = 44100
ksmps  = 32
nchnls = 2

instr 1
  event_i "i", 2, 0,  1.5, p4, cpspch(p5)
  event_i "i", 2, .1, 1.4, p4, cpspch(p5 + p6)
  event_i "i", 2, .2, 1.3, p4, cpspch(p5 + p7)
endin

instr 2
  aenv linen p4, .01, p3, 1
  asig oscili aenv, p5, 1
  chnmix asig, "bus"
endin

instr 50
  abus  chnget "bus"
  kturn phasor 2.5
  outch (kturn < .5 ? 1 : 2), abus
  chnclear "bus"
endin
