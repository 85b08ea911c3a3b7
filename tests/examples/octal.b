// Prints numbers in octal, in a given number of print positions. The manual's 2.3.1; octal.min is
// its MINICODE. The manual writes N /| 7 + '0' and means what the brackets say here: & binds
// less tightly than +.
//
//     bcpl tests/examples/octal.b

GLOBAL $( START:1; WRCH:14 $)

LET WRITEOCT(N, D) BE
$( IF D > 1 THEN WRITEOCT(N >> 3, D - 1)
   WRCH((N & 7) + '0')
$)

LET START() BE
$( WRITEOCT(21919, 6); WRCH('*N')
   WRITEOCT(94, 3); WRCH('*N')
   WRITEOCT(44, 2); WRCH('*N')
   WRITEOCT(33, 2); WRCH('*N')
$)
