// Prints quotient and remainder for all signs, and A - (A / B) * B, which the remainder always
// equals. The manual's 2.3.5; remainder.min is the same in MINICODE.
//
//     bcpl tests/examples/remainder.b

GLOBAL $( START:1; WRCH:14 $)

LET WRD(N) BE
   TEST N < 0
   THEN $( WRCH('-'); WRPD(N) $)
   OR WRPD(-N)

AND WRPD(N) BE
$( IF N < -9 THEN WRPD(N / 10)
   WRCH(-(N REM 10) + '0')
$)

LET DIVIDE(A, B) BE
$( WRD(A / B)
   WRCH(' ')
   WRD(A REM B)
   WRCH(' ')
   WRD(A - (A / B) * B)
   WRCH('*N')
$)

LET START() BE
$( DIVIDE(7, 5); DIVIDE(-7, 5); DIVIDE(7, -5); DIVIDE(-7, -5); DIVIDE(7, -2)
   DIVIDE(#100000, -1)       // -32768, which has no positive number
$)
