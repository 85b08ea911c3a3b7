// Fibonacci numbers by recursion: calls, relations and sums, as the compiler writes them.
GLOBAL $( START:1; WRCH:14 $)

LET FIB(N) = VALOF TEST N < 2 THEN RESULTIS N OR RESULTIS FIB(N - 1) + FIB(N - 2)

LET START() BE
$( FOR TURN = 1 TO 6 DO FIB(23)
   WRCH(FIB(10) + '0' - 50)
   WRCH('*N')
$)
