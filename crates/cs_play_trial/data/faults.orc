instr 1
i1 = 1
k1 = 1
a1 = 1
chnset k1, "c"
