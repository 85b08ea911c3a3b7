// The towers of Hanoi, for every number of discs read up to a 0 or the input's end. The manual's
// 2.5, with READN of sum.b and WRITEF of writef.b, but for its octal and hexadecimal; hanoi.min is
// its MINICODE.
//
//     bcpl tests/examples/hanoi.b < tests/examples/hanoi.in

GLOBAL $( START:1; RDCH:13; WRCH:14; WRITES:60; WRITED:68; READN:70; TERMINATOR:71
          WRITEF:76; GETBYTE:85 $)

LET GETBYTE(S, I) = (S!(I >> 1) >> ((NOT I & 1) << 3)) & 255

LET WRITES(S) BE
   FOR I = 1 TO GETBYTE(S, 0) DO WRCH(GETBYTE(S, I))

LET WRITED(N, D) BE
$( LET T = VEC 20
   LET I, K = 0, -N
   IF N < 0 THEN D, K := D - 1, N
   T!I, K, I := -(K REM 10), K / 10, I + 1 REPEATUNTIL K = 0
   FOR J = I + 1 TO D DO WRCH(' ')
   IF N < 0 DO WRCH('-')
   FOR J = I - 1 TO 0 BY -1 DO WRCH(T!J + '0')
$)

// The width that a hexadecimal digit says.
LET WIDTH(DIGIT) = VALOF
   TEST DIGIT <= '9' THEN RESULTIS DIGIT - '0' OR RESULTIS DIGIT + 10 - 'A'

LET WRITEF(FORMAT, A, B, C, D, E, F, G, H, I, J, K) BE
$( LET T = @A                   // the address of the next parameter
   FOR P = 1 TO GETBYTE(FORMAT, 0) DO
   $( LET CH = GETBYTE(FORMAT, P)
      TEST CH = '%' THEN
      $( LET F, WIDE, N = WRITED, FALSE, 0
         P := P + 1
         CH := GETBYTE(FORMAT, P)
         SWITCHON CH INTO
         $( DEFAULT: WRCH(CH); LOOP;
            CASE 'S': F := WRITES; ENDCASE
            CASE 'C': F := WRCH
            CASE 'N': ENDCASE
            CASE 'I': WIDE := TRUE
         $)
         IF WIDE DO
         $( P := P + 1
            N := WIDTH(GETBYTE(FORMAT, P))
         $)
         F(!T, N)
         T := T + 1
      $)
      OR WRCH(CH)
   $)
$)

LET READN() = VALOF
$( LET SUM, NEG = 0, FALSE
   $( TERMINATOR := RDCH()
      SWITCHON TERMINATOR INTO
      $( CASE ' ': CASE '*T': CASE '*N': LOOP;
         CASE '-': NEG := TRUE
         CASE '+': TERMINATOR := RDCH()
      $)
      BREAK
   $) REPEAT
   WHILE '0' <= TERMINATOR & TERMINATOR <= '9' DO
   $( SUM := 10 * SUM + TERMINATOR - '0'
      TERMINATOR := RDCH()
   $)
   TEST NEG THEN RESULTIS -SUM OR RESULTIS SUM
$)

LET HANOI(N, S, I, D) BE
$( IF N = 0 DO RETURN
   HANOI(N - 1, S, D, I)
   WRITEF("MOVE %N FROM %C TO %C*N", N, S, D)
   HANOI(N - 1, I, S, D)
$)

LET START() BE
$( LET N = READN()
   IF N = 0 DO FINISH
   HANOI(N, 'S', 'I', 'D')
$) REPEAT
