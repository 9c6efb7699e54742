nchnls = 2
zakinit 1, 1
instr 1
i1 = 1
k1 = 1
a1 = 1
