// Prints HELLO through a routine that START knows only by its global. The manual's 3.2, its two
// sections put in one; greeting.min is their MINICODE.
//
//     bcpl tests/examples/greeting.b

GLOBAL $( START:1; WRCH:14; WRITES:60; GETBYTE:85; GREETING:101 $)

LET START() BE GREETING()

LET GREETING() BE WRITES("HELLO")

LET WRITES(S) BE
   FOR I = 1 TO GETBYTE(S, 0) DO WRCH(GETBYTE(S, I))

LET GETBYTE(S, I) = (S!(I >> 1) >> ((NOT I & 1) << 3)) & 255
