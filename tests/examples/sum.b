// Reads numbers up to a 0 or the input's end and prints each with the sum so far. Blanks, tabs and
// newlines may stand before a number, and a sign. The manual's 2.4.1, READN of the BCPL library;
// sum.min is its MINICODE.
//
//     bcpl tests/examples/sum.b < tests/examples/sum.in

GLOBAL $( START:1; RDCH:13; WRCH:14; READN:70; TERMINATOR:71 $)

LET READN() = VALOF
$( LET SUM, NEG = 0, FALSE
   $( TERMINATOR := RDCH()
      SWITCHON TERMINATOR INTO
      $( CASE ' ': CASE '*T': CASE '*N': LOOP;
         CASE '-': NEG := TRUE
         CASE '+': TERMINATOR := RDCH()
      $)
      BREAK
   $) REPEAT
   WHILE '0' <= TERMINATOR & TERMINATOR <= '9' DO
   $( SUM := 10 * SUM + TERMINATOR - '0'
      TERMINATOR := RDCH()
   $)
   TEST NEG THEN RESULTIS -SUM OR RESULTIS SUM
$)

LET WRD(N) BE
   TEST N < 0
   THEN $( WRCH('-'); WRPD(N) $)
   OR WRPD(-N)

AND WRPD(N) BE
$( IF N < -9 THEN WRPD(N / 10)
   WRCH(-(N REM 10) + '0')
$)

LET START() BE
$( LET SUM = 0
   $( LET N = READN()
      IF N = 0 DO RETURN
      SUM := SUM + N
      WRD(N)
      WRCH(' ')
      WRD(SUM)
      WRCH('*N')
   $) REPEAT
$)
