sr = 8
ksmps = 4
nchnls = 2
0dbfs = 128
instr 1
