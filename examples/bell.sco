f1 0 4096 10 1
; start length loudness pitch index
i1 0    3    7000 8.04 4
i1 .75  .    .    8.00
i1 1.5  .    .    8.02
i1 2.25 3.75 .    7.07 5
e
