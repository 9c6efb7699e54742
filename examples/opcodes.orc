; An opcode of one's own: a tone with a beating neighbour, with locals and phases of its own at each call.
sr     = 44100
ksmps  = 32
nchnls = 2

opcode Chorus, a, kki
kamp, kcps, iwide xin
aone oscili kamp, kcps, 1
atwo oscili kamp, kcps * (1 + iwide), 1
xout (aone + atwo) * .5
endop

instr 1
  kenv  linen p4, .1, p3, .5
  aleft  Chorus kenv, p5, .004
  aright Chorus kenv, p5 * 1.5, .006
  outs aleft, aright
endin
