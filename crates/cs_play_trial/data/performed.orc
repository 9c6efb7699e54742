sr = 8
ksmps = 4
nchnls = 1
0dbfs = 128
zakinit 2, 2
