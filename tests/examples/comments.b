// Copies MINICODE text without its comments, their newlines too. The manual's 3.1, RCH of its
// assembler; comments.min is the same in MINICODE. A comment may also end with the input.
//
//     bcpl tests/examples/comments.b < tests/examples/comments.in

GLOBAL $( START:1; RDCH:13; WRCH:14; CH:101 $)

MANIFEST $( ENDSTREAMCH = -1 $)

LET RCH() BE
$( CH := RDCH()
   UNLESS CH = '/' DO RETURN
   UNTIL CH = '*N' | CH = ENDSTREAMCH DO CH := RDCH()
$) REPEAT

LET START() BE
$( RCH()
   IF CH = ENDSTREAMCH DO RETURN
   WRCH(CH)
$) REPEAT
