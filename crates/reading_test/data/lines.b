// Symbols on different lines: a semicolon where a command may end and another begin.
LET START() BE $(
  LET V = VEC 10
  FOR I = 0 TO 10 DO V!I := I * I
  TEST V!3 ~= 9
    THEN WRITES("WRONG*N")
    OR WRITES("")
  RESULT.1 := VALOF
    RESULTIS "A*"B"
  X := 1
  (Y) := 2
  REPEAT
  LOOP
  BREAK
$)
