// Prints numbers in decimal, in the minimum number of print positions. The manual's 2.3.5, first
// WRPD and WRD; decimal.min is their MINICODE. The manual tests N > 10, which prints 10 as 0.
//
//     bcpl tests/examples/decimal.b

GLOBAL $( START:1; WRCH:14 $)

LET WRPD(N) BE
$( IF N > 9 THEN WRPD(N / 10)
   WRCH(N REM 10 + '0')
$)

LET WRD(N) BE
   TEST N < 0
   THEN $( WRCH('-'); WRPD(-N) $)
   OR WRPD(N)

LET LINE(N) BE $( WRD(N); WRCH('*N') $)

LET START() BE
$( LINE(237); LINE(-7); LINE(0); LINE(10); LINE(-100)
   LINE(32767); LINE(-32767)
$)
