// Prints numbers in hexadecimal, in a given number of print positions. The manual's 2.3.8; hex.min
// is its MINICODE. The manual takes the digits from a TABLE; there is none here, and a string
// serves.
//
//     bcpl tests/examples/hex.b

GLOBAL $( START:1; WRCH:14; WRITEHEX:75; GETBYTE:85 $)

LET GETBYTE(S, I) = (S!(I >> 1) >> ((NOT I & 1) << 3)) & 255

LET WRITEHEX(N, D) BE
$( IF D > 1 DO WRITEHEX(N >> 4, D - 1)
   WRCH(GETBYTE("0123456789ABCDEF", (N & 15) + 1))
$)

LET START() BE
$( WRITEHEX(255, 2); WRCH('*N')
   WRITEHEX(256, 3); WRCH('*N')
   WRITEHEX(#137357, 4); WRCH('*N')
   WRITEHEX(1975, 4); WRCH('*N')
$)
