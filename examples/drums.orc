; Drums out of tables: a sine whose pitch falls along a table, and noise from a table that is read by leaps.
; Change, and listen: 180, how far the bass drum falls, as 60 for a soft and 600 for a hard stick; the snare's .4 and
; 190, its skin; table 3 of the score, the shape of each stroke, as `f3 0 1025 -7 1 1024 0` for a longer one.
sr     = 44100
ksmps  = 32
nchnls = 1

; 1 / p3 turns a second are one turn in the whole note: so a table is a shape over time.
instr 1                                ; the bass drum
  kfall  oscili 1, 1 / p3, 2
  aloud  oscili p4, 1 / p3, 3
  asig   oscili aloud, 45 + 180 * kfall, 1
  out asig
endin

; Table 4 has 32 points without order. At these frequencies most of them are leapt over, and two such
; patterns, one times the other, repeat so late that they are heard as noise.
instr 2                                ; the snare: noise and a short tone
  aloud  oscili p4, 1 / p3, 3
  aone   oscil 1, 9973.7, 4
  atwo   oscil 1, 7331.3, 4
  abody  oscili .4, 190, 1
  out aloud * (aone * atwo + abody)
endin

instr 3                                ; the hat: diff leaves the high part of the noise
  aloud  oscili p4, 1 / p3, 3
  aone   oscil 1, 9973.7, 4
  atwo   oscil 1, 7331.3, 4
  ahigh  diff aone * atwo
  out aloud * ahigh
endin
