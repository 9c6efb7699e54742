; A library of three opcodes of one's own: copy the one that you need above the instruments of your piece.
sr     = 44100
ksmps  = 32
nchnls = 2

; asoft Soften asound, kopen: takes brightness away; kopen is 1 for nothing, and ever darker towards 0.
opcode Soften, a, ak
ain, kopen xin
asoft biquad ain, kopen, 0, 0, 1, kopen - 1, 0
xout asoft
endop

; aboth Repeat asound, itime, ikeep: the sound and its echoes, itime seconds apart, each ikeep times as loud as
; the one before. What is fed back comes a control cycle later.
opcode Repeat, a, aii
ain, itime, ikeep xin
aback init 0
alate delay ain + aback, itime
aback = alate * ikeep
aboth = ain + aback
xout aboth
endop

; aleft, aright Place asound, kwhere: a sound between left (0) and right (1).
opcode Place, aa, ak
ain, kwhere xin
aleft = ain * (1 - kwhere)
aright = ain * kwhere
xout aleft, aright
endop

instr 1
  aenv   linseg 0, .01, p4, .3, 0, p3, 0
  abuzz  oscili aenv, cpspch(p5), 1
  kopen  linseg .4, .3, .05, p3, .05
  asoft  Soften abuzz, kopen
  aecho  Repeat asoft, .21, .6
  aleft, aright Place aecho, p6
  outs aleft, aright
endin
