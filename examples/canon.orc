; A canon: one tune that three voices play, each four beats after the one before and an octave lower.
; Change, and listen: the places of the voices (p6 in the score, 0 is left and 1 is right); the beats of the two
; `b` lines, 2 and 4 make it close and 8 and 16 a plain round; the last tempo of `t`, 30 lets the end stand still.
sr     = 44100
ksmps  = 32
nchnls = 2

instr 1
  aloud  linseg 0, .02, p4, p3, p4 * .2, .2, 0
  aend   linen  aloud, 0, p3, .05
  asig   oscili aend, cpspch(p5), 1
  outs asig * (1 - p6), asig * p6
endin
