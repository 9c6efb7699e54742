; A click at each second: the level of a note is its fourth field.
sr    = 8000
ksmps = 8

instr 1
  a1 = p4     ; the same level in every frame
  out a1
endin
