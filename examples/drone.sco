; two drones of instruments 1 and 2; each is ended by its stop, the second after the first
f1 0 2048 10 1 0 2 0 1
i1 0 -1 5000 110
i2 1 -1 4000 165
i-1 3 0
i-2 4 0
e
