// Prints strings of several lengths and with every escape that shows, and the bytes of one in
// decimal. The manual's 2.4 and 2.2.2; strings.min is the same in MINICODE.
//
//     bcpl tests/examples/strings.b

GLOBAL $( START:1; WRCH:14; WRITES:60; GETBYTE:85 $)

LET GETBYTE(S, I) = (S!(I >> 1) >> ((NOT I & 1) << 3)) & 255

LET WRITES(S) BE
   FOR I = 1 TO GETBYTE(S, 0) DO WRCH(GETBYTE(S, I))

LET WRD(N) BE
   TEST N < 0
   THEN $( WRCH('-'); WRPD(N) $)
   OR WRPD(-N)

AND WRPD(N) BE
$( IF N < -9 THEN WRPD(N / 10)
   WRCH(-(N REM 10) + '0')
$)

LET START() BE
$( WRITES("")
   WRITES("A*N")
   WRITES("SHE SAID*S*"NO/YES*" AND 'MAYBE*'*N")
   WRITES("**S IS A SPACE, ** A STAR*N")
   FOR I = 0 TO 5 DO
   $( WRD(GETBYTE("HELLO", I))
      WRCH('*N')
   $)
$)
