sr = 8
ksmps = 4
