f1 0 4096 10 1 .7 .5 .4 .3 .25 .2
i1 0 2 12000 220 5 .5
f0 8                     ; the piece ends here, whatever notes ask for
