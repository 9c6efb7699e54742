sr = 48000
ksmps = 32
instr 1
a1 = p4
out a1
endin
