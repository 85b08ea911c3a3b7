// Prints with formats: every layout symbol, and a percent sign. The manual's 2.4.2, WRITEF of the
// BCPL library; writef.min is its MINICODE. Two things differ from the manual. There is no GOTO
// here. And a parameter is read only when it is to be printed: the manual reads one for "%%" too,
// where the call need not have given it, and reading a word in which nothing was stored is
// undefined.
//
//     bcpl tests/examples/writef.b

GLOBAL $( START:1; WRCH:14; WRITES:60; WRITED:68; WRITEHEX:75; WRITEF:76
          WRITEOCT:77; GETBYTE:85 $)

LET GETBYTE(S, I) = (S!(I >> 1) >> ((NOT I & 1) << 3)) & 255

LET WRITES(S) BE
   FOR I = 1 TO GETBYTE(S, 0) DO WRCH(GETBYTE(S, I))

LET WRITED(N, D) BE
$( LET T = VEC 20
   LET I, K = 0, -N
   IF N < 0 THEN D, K := D - 1, N
   T!I, K, I := -(K REM 10), K / 10, I + 1 REPEATUNTIL K = 0
   FOR J = I + 1 TO D DO WRCH(' ')
   IF N < 0 DO WRCH('-')
   FOR J = I - 1 TO 0 BY -1 DO WRCH(T!J + '0')
$)

LET WRITEOCT(N, D) BE
$( IF D > 1 THEN WRITEOCT(N >> 3, D - 1)
   WRCH((N & 7) + '0')
$)

LET WRITEHEX(N, D) BE
$( IF D > 1 DO WRITEHEX(N >> 4, D - 1)
   WRCH(GETBYTE("0123456789ABCDEF", (N & 15) + 1))
$)

// The width that a hexadecimal digit says.
LET WIDTH(DIGIT) = VALOF
   TEST DIGIT <= '9' THEN RESULTIS DIGIT - '0' OR RESULTIS DIGIT + 10 - 'A'

LET WRITEF(FORMAT, A, B, C, D, E, F, G, H, I, J, K) BE
$( LET T = @A                   // the address of the next parameter
   FOR P = 1 TO GETBYTE(FORMAT, 0) DO
   $( LET CH = GETBYTE(FORMAT, P)
      TEST CH = '%' THEN
      $( LET F, WIDE, N = WRITED, FALSE, 0
         P := P + 1
         CH := GETBYTE(FORMAT, P)
         SWITCHON CH INTO
         $( DEFAULT: WRCH(CH); LOOP;
            CASE 'S': F := WRITES; ENDCASE
            CASE 'C': F := WRCH
            CASE 'N': ENDCASE
            CASE 'O': F := WRITEOCT; WIDE := TRUE; ENDCASE
            CASE 'X': F := WRITEHEX
            CASE 'I': WIDE := TRUE
         $)
         IF WIDE DO
         $( P := P + 1
            N := WIDTH(GETBYTE(FORMAT, P))
         $)
         F(!T, N)
         T := T + 1
      $)
      OR WRCH(CH)
   $)
$)

LET START() BE
$( WRITEF("HELLO*N")
   WRITEF("VALUE = %N*N", 234)
   WRITEF("%C%C %S|%I5|%I5|%O6|%X4|100%%*N", 'O', 'K', "STRING", 42, -42, #52637, #137357)
$)
