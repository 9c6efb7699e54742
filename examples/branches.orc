; A tree of tones: each note asks for two others, a fifth above and a fourth below, softer and shorter, up to a depth.
; Change, and listen: the depth (p6 of the score); the two ratios 1.5 and .75; when the branches begin,
; `p3 * .5` twice for chords and `p3` twice for one after another.
sr     = 44100
ksmps  = 32
nchnls = 2

; asig Plucked iloud, icps, ibright: a tone that falls, and darkens as it falls.
opcode Plucked, a, iii
iloud, icps, ibright xin
kfall line  1, p3, 0
abuzz oscili iloud * kfall * kfall, icps, 1
asig  biquad abuzz, ibright, 0, 0, 1, ibright - 1, 0
xout asig
endop

instr 1
  asig  Plucked p4, p5, .1 + .1 * p6
  outs  asig * (1 - p7), asig * p7
  if p6 > 0 then
    schedule 1, p3 * .5,  p3 * .8, p4 * .6, p5 * 1.5, p6 - 1, p7 * .6
    schedule 1, p3 * .75, p3 * .8, p4 * .6, p5 * .75, p6 - 1, 1 - (1 - p7) * .6
  endif
endin
