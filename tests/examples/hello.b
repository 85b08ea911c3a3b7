// Prints HELLO. The manual's 2.1 and 2.4, with WRITES and GETBYTE of its library; hello.min is
// its MINICODE. The manual's GETBYTE shifts by 2; a byte has eight bits, so by 3 here.
//
//     bcpl tests/examples/hello.b

GLOBAL $( START:1; WRCH:14; WRITES:60; GETBYTE:85 $)

LET GETBYTE(S, I) = (S!(I >> 1) >> ((NOT I & 1) << 3)) & 255

LET WRITES(S) BE
   FOR I = 1 TO GETBYTE(S, 0) DO WRCH(GETBYTE(S, I))

LET START() BE WRITES("HELLO")
