// Reads decimal integers with one blank after each, the last with a newline, and prints each on
// its line. The manual's 2.4.1, RDN; rdn.min is its MINICODE. CH holds the first character of the
// integer before and the next one after. Of the manual's '0' <= CH <= '9' and B -> -N, N the
// college's BCPL has neither.
//
//     bcpl tests/examples/rdn.b < tests/examples/rdn.in

GLOBAL $( START:1; RDCH:13; WRCH:14; CH:71 $)

LET RDN() = VALOF
$( LET N, B = 0, FALSE
   IF CH = '-' THEN
   $( B := TRUE; CH := RDCH() $)
   WHILE '0' <= CH & CH <= '9' DO
   $( N := N * 10 + CH - '0'; CH := RDCH() $)
   TEST B THEN RESULTIS -N OR RESULTIS N
$)

LET WRD(N) BE
   TEST N < 0
   THEN $( WRCH('-'); WRPD(N) $)
   OR WRPD(-N)

AND WRPD(N) BE
$( IF N < -9 THEN WRPD(N / 10)
   WRCH(-(N REM 10) + '0')
$)

LET START() BE
$( CH := RDCH()
   WRD(RDN())
   WRCH('*N')
$) REPEATUNTIL CH = '*N' | CH = -1
