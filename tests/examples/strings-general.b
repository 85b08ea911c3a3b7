// Prints a string with the general GETBYTE, which divides instead of shifting. The manual's 2.4;
// strings-general.min is the same in MINICODE.
//
//     bcpl tests/examples/strings-general.b

GLOBAL $( START:1; WRCH:14; WRITES:60; GETBYTE:85 $)

MANIFEST $( CH.P.C = 2          // characters in a cell
            CHAR.SIZE = 8       // bits of a character
            CHAR.MASK = 255 $)

LET GETBYTE(S, I) =
   (S!(I / CH.P.C) >>
      ((CH.P.C - 1) - I REM CH.P.C) * CHAR.SIZE) & CHAR.MASK

LET WRITES(S) BE
   FOR I = 1 TO GETBYTE(S, 0) DO WRCH(GETBYTE(S, I))

LET START() BE WRITES("THE ESSENCE OF COMPUTER SCIENCE*N")
