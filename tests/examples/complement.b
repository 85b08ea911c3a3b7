// Prints the integers from 3 to -4 as cells of three bits hold them. The manual's 1.3, its table of
// two's complement; complement.min is the same in MINICODE.
//
//     bcpl tests/examples/complement.b

GLOBAL $( START:1; WRCH:14 $)

LET WRD(N) BE
   TEST N < 0
   THEN $( WRCH('-'); WRPD(N) $)
   OR WRPD(-N)

AND WRPD(N) BE
$( IF N < -9 THEN WRPD(N / 10)
   WRCH(-(N REM 10) + '0')
$)

LET START() BE
   FOR N = 3 TO -4 BY -1 DO
   $( FOR BIT = 2 TO 0 BY -1 DO WRCH(((N >> BIT) & 1) + '0')
      WRCH(' ')
      WRD(N)
      WRCH('*N')
   $)
