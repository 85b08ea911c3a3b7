// Reads two characters and prints the larger. The manual's 2.3: larger-compiled.min is what its
// compiler made, larger.min the same by hand. The manual writes WRCH(A > B -> A, B); there is
// no such choice here, and TEST stands for it.
//
//     bcpl tests/examples/larger-compiled.b < tests/examples/larger-compiled.in

GLOBAL $( START:1; RDCH:13; WRCH:14 $)

LET START() BE
$( LET A = RDCH()
   LET B = RDCH()
   TEST A > B THEN WRCH(A) OR WRCH(B)
$)
