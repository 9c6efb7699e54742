sr = 8
ksmps = 4
0dbfs = 128
