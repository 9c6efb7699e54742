; A trigger that opens and closes: samphold keeps the pitch of a slow wave at each beat, turnoff ends the note after eight.
sr     = 44100
ksmps  = 42
nchnls = 1

instr 1
  kwave oscili 200, .7, 1
  kbeat phasor 4
  kgate = (kbeat < .01 ? 1 : 0)
  kheld samphold kwave, kgate
  kenv  = (kbeat < .5 ? p4 : 0)
  asmooth interp kenv
  asig oscili asmooth, 300 + kheld, 1
  out asig
  kcount init 0
  kcount = kcount + 1
  if kcount == 2100 then
    turnoff
  endif
endin
