f1 0 4096 10 1 0 .4 0 .2
i50 0   8                ; the echoes: performed last, since instruments play in the order of their numbers
i1  0   .4  9000 8.00
i1  .2  .   8000 8.07
i1  .4  .   8000 9.03
i1  3   .   9000 7.10
i1  3.6 .   8000 8.05
