// Prints 1975 in every base from 2 to 16, the base before it in two positions. What the manual
// asks for at the end of its 2.3.8; bases.min is the same in MINICODE.
//
//     bcpl tests/examples/bases.b

GLOBAL $( START:1; WRCH:14; GETBYTE:85 $)

LET GETBYTE(S, I) = (S!(I >> 1) >> ((NOT I & 1) << 3)) & 255

LET WRB(N, B) BE
$( IF N >= B THEN WRB(N / B, B)
   WRCH(GETBYTE("0123456789ABCDEF", N REM B + 1))
$)

LET START() BE
   FOR B = 2 TO 16 DO
   $( IF B <= 9 THEN WRCH(' ')
      WRB(B, 10)
      WRCH(' ')
      WRB(1975, B)
      WRCH('*N')
   $)
