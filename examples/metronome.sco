; a note of one second every two: the level changes at each second
i1  0 1 16384
i1 ^+2 . .
i1 ^+2 . .
i1 ^+2 . .
i1 ^+2 . .
i1 ^+2 . .
i1 ^+2 . .
i1 ^+2 . .
e
