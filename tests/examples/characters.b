// Prints every character of the input with its code in octal. The manual's 1.3 and 2.3.1;
// characters.min is the same in MINICODE.
//
//     bcpl tests/examples/characters.b < tests/examples/characters.in

GLOBAL $( START:1; RDCH:13; WRCH:14; WRITES:60; WRITEOCT:77; GETBYTE:85 $)

LET GETBYTE(S, I) = (S!(I >> 1) >> ((NOT I & 1) << 3)) & 255

LET WRITES(S) BE
   FOR I = 1 TO GETBYTE(S, 0) DO WRCH(GETBYTE(S, I))

LET WRITEOCT(N, D) BE
$( IF D > 1 THEN WRITEOCT(N >> 3, D - 1)
   WRCH((N & 7) + '0')
$)

LET START() BE
$( LET CH = RDCH()
   IF CH = -1 DO RETURN
   WRCH(CH)
   WRITES(" = #")
   WRITEOCT(CH, 3)
   WRCH('*N')
$) REPEAT
