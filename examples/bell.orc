; A bell by frequency modulation: one oscillator moves the frequency of another up and down.
; Change, and listen: the ratio 1.4, as 1 or 2 for a brass tone and 3.53 for a small bell; p6 of the score, how bright
; it begins, from 0 to 10; `afall * p4` in place of the third power, which falls as an organ's valve would.
sr     = 44100
ksmps  = 32
nchnls = 1

instr 1
  icps   = cpspch(p5)
  imod   = icps * 1.4                  ; no whole multiple: that makes it metal
  kindex line p6, p3, 0                ; how far the frequency is moved: bright at first, then a plain tone
  afall  line 1, p3, 0
  aamp   = afall * afall * afall * p4  ; the third power falls fast and then slowly, as a struck bell does
  amod   oscili kindex * imod, imod, 1
  abell  oscili aamp, icps + amod, 1
  out abell
endin
