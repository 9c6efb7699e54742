sr = 44100
ksmps = 64
instr 1
a1 = p4
out a1
endin
