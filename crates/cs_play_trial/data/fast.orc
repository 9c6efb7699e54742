sr = 192000
ksmps = 4
0dbfs = 128
