LET F() BE $(
  LET V = VEC 10
  LET W = VEC -N
  LET A = V!0
  LET B, C, D = 1, VALOF A := 2, "";
  F(A)
$)
AND G() BE $( LET A = 1 $)
