sr = 8
ksmps = 4
instr 1
a1 = p4
out a1
endin
