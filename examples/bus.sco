f1 0 2048 10 1 .4 .2 .1
i50 0 6
; start, loudness, pitch, the two other tones in steps above it
i1 0   0 4000 8.00 .03 .07
i1 1.5 0 .    7.08 .04 .07
i1 3   0 .    7.10 .04 .07
i1 4.5 0 .    8.00 .04 .07
e
