// commas.b: a decimal comma and a decimal point are one and the same sign.
//
// One logger writes 48,5 and another 48.5, and both mean 485 tenths of a per cent. In
// READ.READING two labels, CASE ',' and CASE '.', stand before one command. The college's
// old compiler lost the first of two such labels: the comma was passed over like any other
// sign, and 48,5 was read as 485 per cent. If that happened here, the output's first line
// would say 4850 tenths, 485.0 per cent, and no longer what the second line says.
//
//     bcpl examples/commas.b < examples/commas.in

GLOBAL $( START:1; RDCH:13; WRCH:14; CH:100 $)

MANIFEST $( END.OF.INPUT = -1; NO.NUMBER = #100000 $)

// From library.b

// A string is the address of its words, with two bytes in each, the first in the high half.
// Byte 0 is the length, and the characters follow.
LET GETBYTE(STRING, INDEX) = VALOF
$( LET PAIR = STRING!(INDEX / 2)
   TEST INDEX REM 2 = 0 THEN RESULTIS PAIR >> 8 OR RESULTIS PAIR & 255
$)

LET NEWLINE() BE WRCH('*N')

LET SPACES(MANY) BE FOR I = 1 TO MANY DO WRCH('*S')

LET WRITES(STRING) BE
   FOR I = 1 TO GETBYTE(STRING, 0) DO WRCH(GETBYTE(STRING, I))

// A number at the right of WIDTH places; one that is too wide is written whole. The
// digits are taken from a negative number, since -32768 has no positive one.
LET WRITED(N, WIDTH) BE
$( LET DIGIT = VEC 4
   LET MANY, REST = 0, -N
   IF N < 0 DO WIDTH, REST := WIDTH - 1, N
   $( DIGIT!MANY := -(REST REM 10)
      MANY, REST := MANY + 1, REST / 10
   $) REPEATUNTIL REST = 0
   SPACES(WIDTH - MANY)
   IF N < 0 DO WRCH('-')
   FOR I = MANY - 1 TO 0 BY -1 DO WRCH(DIGIT!I + '0')
$)

LET WRITEN(N) BE WRITED(N, 0)

// Tenths with a decimal point at the right of WIDTH places: 485 as 48.5, and -5 as -0.5.
LET WRITE.TENTHS(N, WIDTH) BE
$( LET WHOLE, TENTH = N / 10, N REM 10       // toward zero: -5 / 10 is 0, and -5 REM 10 is -5
   IF TENTH < 0 DO TENTH := -TENTH
   TEST N < 0 & WHOLE = 0
   THEN $( SPACES(WIDTH - 4); WRITES("-0") $)
   OR WRITED(WHOLE, WIDTH - 2)
   WRCH('.')
   WRCH(TENTH + '0')
$)

// CH is the next character that has not been used yet, and NEXT goes on to the one after
// it: call it once at the start. The carriage returns that some loggers write at every
// line's end are left out.
LET NEXT() BE
   CH := RDCH() REPEATWHILE CH = '*C'

LET AT.LINE.END() = (CH = '*N' | CH = END.OF.INPUT)

// To the first character of the next line.
LET SKIP.LINE() BE
$( UNTIL AT.LINE.END() DO NEXT()
   IF CH = '*N' DO NEXT()
$)

// The program itself

// Reads a line and writes it as it stands. Its digits, up to the first one after the comma
// or the point, are a reading in tenths; a line without digits is NO.NUMBER.
LET READ.READING() = VALOF
$( LET TENTHS, DIGITS, DECIMALS, AFTER.SIGN = 0, 0, 0, FALSE
   UNTIL AT.LINE.END() DO
   $( SWITCHON CH INTO
      $( CASE '0': CASE '1': CASE '2': CASE '3': CASE '4':
         CASE '5': CASE '6': CASE '7': CASE '8': CASE '9':
            IF DECIMALS = 0 DO TENTHS := 10 * TENTHS + CH - '0'
            DIGITS := DIGITS + 1
            IF AFTER.SIGN DO DECIMALS := DECIMALS + 1
            ENDCASE

         CASE ',':
         CASE '.':
            AFTER.SIGN := TRUE
            ENDCASE

         DEFAULT:               // a blank, a quotation mark, a per cent sign
      $)
      WRCH(CH)
      NEXT()
   $)
   IF DIGITS = 0 DO RESULTIS NO.NUMBER
   IF DECIMALS = 0 DO TENTHS := 10 * TENTHS       // 51 is 510 tenths
   RESULTIS TENTHS
$)

LET START() BE
$( NEXT()
   UNTIL CH = END.OF.INPUT DO
   $( LET TENTHS = READ.READING()
      TEST TENTHS = NO.NUMBER
      THEN WRITES(" is no reading")
      OR $( WRITES(" is ")
            WRITEN(TENTHS)
            WRITES(" tenths, ")
            WRITE.TENTHS(TENTHS, 0)
            WRITES(" per cent")
         $)
      NEWLINE()
      SKIP.LINE()
   $)
$)
