// Prints numbers in decimal, the largest negative one too: the digits are those of a negative
// number. The manual's 2.3.5, second WRD and WRPD; decimal-negative.min is their MINICODE. The
// manual tests N < -10. A decimal number is at most 32767, so -32768 is written #100000.
//
//     bcpl tests/examples/decimal-negative.b

GLOBAL $( START:1; WRCH:14 $)

LET WRD(N) BE
   TEST N < 0
   THEN $( WRCH('-'); WRPD(N) $)
   OR WRPD(-N)

AND WRPD(N) BE
$( IF N < -9 THEN WRPD(N / 10)
   WRCH(-(N REM 10) + '0')
$)

LET LINE(N) BE $( WRD(N); WRCH('*N') $)

LET START() BE
$( LINE(#100000); LINE(32767); LINE(-10); LINE(10); LINE(-7); LINE(0) $)
