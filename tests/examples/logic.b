// Prints the table of and, or, not equivalent and equivalent for the bits of A and B. The manual's
// 2.2.1; logic.min is the same in MINICODE. The college's BCPL has no NEQV and EQV, so these two
// are made from the others.
//
//     bcpl tests/examples/logic.b

GLOBAL $( START:1; WRCH:14 $)

LET WRBIT(N) BE $( WRCH(N + '0'); WRCH(' ') $)

LET START() BE
   FOR A = 0 TO 1 DO
      FOR B = 0 TO 1 DO
      $( LET BOTH, EITHER = A & B, A | B
         LET NEQV = NOT BOTH & EITHER
         LET EQV = NOT NEQV & 1
         WRBIT(A); WRBIT(B); WRBIT(BOTH); WRBIT(EITHER); WRBIT(NEQV)
         WRCH(EQV + '0')
         WRCH('*N')
      $)
