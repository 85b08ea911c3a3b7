// Prints numbers in decimal, with leading zeros, in a given number of print positions; digits too
// many are lost. The manual's 2.3.4; decimal-fixed.min is its MINICODE. In the manual the last
// line calls WRD where it means WRCH.
//
//     bcpl tests/examples/decimal-fixed.b

GLOBAL $( START:1; WRCH:14 $)

LET WRD(N, D) BE
$( IF D > 1 THEN WRD(N / 10, D - 1)
   WRCH(N REM 10 + '0')
$)

LET START() BE
$( WRD(237, 5); WRCH('*N')
   WRD(7, 3); WRCH('*N')
   WRD(1975, 4); WRCH('*N')
   WRD(1975, 2); WRCH('*N')
$)
