f1 0 4096 10 1 .5 .3 .25 .1 .1
t 0 100 16 120 20 60             ; faster up to beat 16, and slower to the end
; the tune, by the first voice
i1 0   1   6000 8.07 .5
i1 +   .5  .    8.05 .
i1 +   .   .    8.04 .
i1 +   1   .    8.02 .
i1 +   .   .    8.04 .
i1 +   .5  .    8.05 .
i1 +   .   .    8.07 .
i1 +   1   .    8.09 .
i1 +   2   .    8.07 .
; `b` adds to the beats of all later lines: the same tune four beats later, an octave lower, on the left
b 4
i1 0   1   6000 7.07 .1
i1 +   .5  .    7.05 .
i1 +   .   .    7.04 .
i1 +   1   .    7.02 .
i1 +   .   .    7.04 .
i1 +   .5  .    7.05 .
i1 +   .   .    7.07 .
i1 +   1   .    7.09 .
i1 +   2   .    7.07 .
; and on the right
b 8
i1 0   1   9000 6.07 .9
i1 +   .5  .    6.05 .
i1 +   .   .    6.04 .
i1 +   1   .    6.02 .
i1 +   .   .    6.04 .
i1 +   .5  .    6.05 .
i1 +   .   .    6.07 .
i1 +   1   .    6.09 .
i1 +   3   .    6.07 .
