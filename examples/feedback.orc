; Feedback over zak places: what an echo gives goes into the other side's echo, darker each time.
; Change, and listen: how much comes back (.75 twice, below 1); the two times .31 and .47, near to each other they
; beat, and below .01 they ring like a pipe; the filters' .5 and -.5, as .2 and -.8 for a darker room.
sr     = 44100
ksmps  = 32
nchnls = 2
zakinit 3, 1                           ; place 1: what notes play; 2 and 3: the echoes of left and right

instr 1
  aenv  linseg 0, .005, p4, .2, 0, 1, 0
  asig  oscili aenv, cpspch(p5), 1
  zawm  asig, 1
endin

instr 50
  adry   zar 1
  aleft  zar 2                         ; what the echoes gave a control cycle ago
  aright zar 3
  asoft  biquad aright, .5, 0, 0, 1, -.5, 0
  adim   biquad aleft, .5, 0, 0, 1, -.5, 0
  alate  delay adry + asoft * .75, .31
  alater delay adim * .75, .47
  zaw    alate, 2
  zaw    alater, 3
  outs   adry + alate, adry * .5 + alater
  zacl   1, 1
endin
