<CsoundSynthesizer>
<CsOptions>
-o test.wav -W
</CsOptions>
<CsInstruments>
; A tune of plucked tones: each note names its pitch as octave.step, and fades as long as it lasts.
sr     = 44100
ksmps  = 32
nchnls = 1

instr 1
  iamp  = p4
  icps  = cpspch(p5)
  aenv  linen  iamp, .01, p3, .08
  asig oscili aenv, icps, 1
  out asig
endin
</CsInstruments>
<CsScore>
f1 0 4096 10 8 4 2 1
t 0 120
i1 0  1   9000 8.00
i1 +  .   .    8.02
i1 +  .   .    8.04
i1 +  .   .    8.05
i1 +  2   .    8.07
i1 ^+2 2  .    8.07
i1 ^+2 1  .    8.09
i1 +  .   .    8.09
i1 +  .   .    8.09
i1 +  .   .    8.09
i1 +  4   .    8.07
e
</CsScore>
</CsoundSynthesizer>
