// Reads constants as an assembler does, one blank after each, the last with a newline, and prints
// their values. The manual's 3.1.1, RDCNST and CHAR, with the RCH of its 3.1; constants.min is the
// same in MINICODE. In the manual CHAR chooses by a chain of ->; a SWITCHON stands for it here.
//
//     bcpl tests/examples/constants.b < tests/examples/constants.in

GLOBAL $( START:1; RDCH:13; WRCH:14; CH:101 $)

MANIFEST $( ENDSTREAMCH = -1 $)

LET RCH() BE
$( CH := RDCH()
   UNLESS CH = '/' DO RETURN
   UNTIL CH = '*N' | CH = ENDSTREAMCH DO CH := RDCH()
$) REPEAT

LET CHAR() = VALOF
$( LET A = CH
   IF A = '**' THEN
   $( CH := RDCH()
      SWITCHON CH INTO
      $( CASE 'N': A := '*N'; ENDCASE
         CASE 'P': A := '*P'; ENDCASE
         CASE 'T': A := '*T'; ENDCASE
         CASE 'S': A := '*S'; ENDCASE
         DEFAULT: A := CH
      $)
   $)
   CH := RDCH()
   RESULTIS A
$)

LET RDCNST() = VALOF
$( LET A, B = 0, FALSE
   SWITCHON CH INTO
   $( CASE '-': B := TRUE
      CASE '+': RCH()
      DEFAULT: WHILE '0' <= CH & CH <= '9' DO
               $( A := 10 * A + CH - '0'; RCH() $)
               ENDCASE
      CASE '*'': RCH(); A := CHAR()
               RCH()
   $)
   TEST B THEN RESULTIS -A OR RESULTIS A
$)

LET WRD(N) BE
   TEST N < 0
   THEN $( WRCH('-'); WRPD(N) $)
   OR WRPD(-N)

AND WRPD(N) BE
$( IF N < -9 THEN WRPD(N / 10)
   WRCH(-(N REM 10) + '0')
$)

LET START() BE
$( RCH()
   WRD(RDCNST())
   WRCH('*N')
$) REPEATUNTIL CH = '*N' | CH = ENDSTREAMCH
