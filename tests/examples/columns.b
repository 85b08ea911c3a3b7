// Prints numbers in a column: leading zeros are spaces, and a number too wide for its column is
// printed whole. The manual's 2.3.6, WRITED of the BCPL library; columns.min is its MINICODE. The
// manual joins its locals by AND; here each LET stands for itself.
//
//     bcpl tests/examples/columns.b

GLOBAL $( START:1; WRCH:14; WRITED:68 $)

LET WRITED(N, D) BE
$( LET T = VEC 20
   LET I, K = 0, -N
   IF N < 0 THEN D, K := D - 1, N
   T!I, K, I := -(K REM 10), K / 10, I + 1 REPEATUNTIL K = 0
   FOR J = I + 1 TO D DO WRCH(' ')
   IF N < 0 DO WRCH('-')
   FOR J = I - 1 TO 0 BY -1 DO WRCH(T!J + '0')
$)

LET LINE(N, D) BE $( WRITED(N, D); WRCH('*N') $)

LET START() BE
$( LINE(1, 6); LINE(-22, 6); LINE(333, 6)
   LINE(#100000, 6); LINE(#100000, 3)       // -32768
   LINE(0, 6)
$)
