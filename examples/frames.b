// frames.b: a logger that frames its readings in control bytes, which no key types.
//
// It sends a byte 2, the sensor's letter, a byte 31, the reading in tenths of a degree and
// a byte 3. What stands between two frames means nothing. If a frame breaks off, the next one
// may begin at once. The bytes are written by their numbers: '*002' is the character 2. So
// is the degree sign of the output, byte 176 in the printer's table.
//
//     bcpl examples/frames.b < examples/frames.in

GLOBAL $( START:1; RDCH:13; WRCH:14; CH:100 $)

MANIFEST $( END.OF.INPUT = -1; FRAME = '*002'; SEPARATOR = '*031'; FRAME.END = '*003' $)

// From library.b

LET GETBYTE(STRING, INDEX) = VALOF
$( LET PAIR = STRING!(INDEX / 2)
   TEST INDEX REM 2 = 0 THEN RESULTIS PAIR >> 8 OR RESULTIS PAIR & 255
$)

LET WRITES(STRING) BE
   FOR I = 1 TO GETBYTE(STRING, 0) DO WRCH(GETBYTE(STRING, I))

// The digits of a number that is not negative.
LET WRITEN(N) BE
$( IF N > 9 DO WRITEN(N / 10)
   WRCH('0' + N REM 10)
$)

LET NEXT() BE CH := RDCH()

LET TOLD(SENSOR, TENTHS) BE
$( WRCH(SENSOR)
   WRITES(": ")
   WRITEN(TENTHS / 10)
   WRCH('.')
   WRITEN(TENTHS REM 10)
   WRITES("*176C*N")
$)

// A frame, from past its first byte on. CH is then its last byte, or the one that broke it off.
LET READ.FRAME() BE
$( LET SENSOR, TENTHS = RDCH(), 0
   NEXT()
   IF CH = SEPARATOR DO
   $( NEXT()
      WHILE '0' <= CH & CH <= '9' DO
      $( TENTHS := TENTHS * 10 + CH - '0'
         NEXT()
      $)
      IF CH = FRAME.END DO
      $( TOLD(SENSOR, TENTHS)
         RETURN
      $)
   $)
   WRITES("a frame broke off*N")
$)

LET START() BE
$( NEXT()
   UNTIL CH = END.OF.INPUT DO
      TEST CH = FRAME THEN READ.FRAME() OR NEXT()
$)
