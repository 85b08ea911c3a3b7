// histogram.b: how often the humidity was in each band of 5 per cent, drawn in stars.
//
// The input is readings of relative humidity, any number of them in a line. A reading on
// the border of two bands belongs to the upper one: 50.0 to the band from 50 to 55. Where
// a band has more readings than a row has room for, a star stands for several.
//
//     bcpl examples/histogram.b < examples/histogram.in

GLOBAL $( START:1; RDCH:13; WRCH:14; CH:100 $)

MANIFEST $( END.OF.INPUT = -1; NO.NUMBER = #100000
            WIDTH.OF.BAND = 50    // tenths of a per cent
            LAST = 19             // the bands are 0 to 19, and 100.0 belongs to the last
            LONGEST.ROW = 40 $)

// From library.b

// A string is the address of its words, with two bytes in each, the first in the high half.
// Byte 0 is the length, and the characters follow.
LET GETBYTE(STRING, INDEX) = VALOF
$( LET PAIR = STRING!(INDEX / 2)
   TEST INDEX REM 2 = 0 THEN RESULTIS PAIR >> 8 OR RESULTIS PAIR & 255
$)

LET NEWLINE() BE WRCH('*N')

LET SPACES(MANY) BE FOR I = 1 TO MANY DO WRCH('*S')

LET WRITES(STRING) BE
   FOR I = 1 TO GETBYTE(STRING, 0) DO WRCH(GETBYTE(STRING, I))

// A number at the right of WIDTH places; one that is too wide is written whole. The
// digits are taken from a negative number, since -32768 has no positive one.
LET WRITED(N, WIDTH) BE
$( LET DIGIT = VEC 4
   LET MANY, REST = 0, -N
   IF N < 0 DO WIDTH, REST := WIDTH - 1, N
   $( DIGIT!MANY := -(REST REM 10)
      MANY, REST := MANY + 1, REST / 10
   $) REPEATUNTIL REST = 0
   SPACES(WIDTH - MANY)
   IF N < 0 DO WRCH('-')
   FOR I = MANY - 1 TO 0 BY -1 DO WRCH(DIGIT!I + '0')
$)

LET WRITEN(N) BE WRITED(N, 0)

// Tenths with a decimal point at the right of WIDTH places: 485 as 48.5, and -5 as -0.5.
LET WRITE.TENTHS(N, WIDTH) BE
$( LET WHOLE, TENTH = N / 10, N REM 10       // toward zero: -5 / 10 is 0, and -5 REM 10 is -5
   IF TENTH < 0 DO TENTH := -TENTH
   TEST N < 0 & WHOLE = 0
   THEN $( SPACES(WIDTH - 4); WRITES("-0") $)
   OR WRITED(WHOLE, WIDTH - 2)
   WRCH('.')
   WRCH(TENTH + '0')
$)

// CH is the next character that has not been used yet, and NEXT goes on to the one after
// it: call it once at the start. The carriage returns that some loggers write at every
// line's end are left out.
LET NEXT() BE
   CH := RDCH() REPEATWHILE CH = '*C'

LET AT.DIGIT() = ('0' <= CH & CH <= '9')

LET SKIP.BLANKS() BE
   WHILE CH = '*S' | CH = '*T' DO NEXT()

// A number of digits only, or NO.NUMBER. One past 32767 is not noticed: see overflow.b.
LET READ.DIGITS() = VALOF
$( LET N = 0
   UNLESS AT.DIGIT() DO RESULTIS NO.NUMBER
   $( N := 10 * N + CH - '0'
      NEXT()
   $) REPEATWHILE AT.DIGIT()
   RESULTIS N
$)

// A reading in tenths, after any blanks; or NO.NUMBER. 48,5 and 48.5 are 485; 51 is 510;
// of 48.57 the 7 is passed over.
LET READ.TENTHS() = VALOF
$( LET WHOLE, TENTH, NEGATIVE = 0, 0, FALSE
   SKIP.BLANKS()
   IF CH = '-' DO
   $( NEGATIVE := TRUE
      NEXT()
   $)
   WHOLE := READ.DIGITS()
   IF WHOLE = NO.NUMBER DO RESULTIS NO.NUMBER
   SWITCHON CH INTO
   $( CASE ',':
      CASE '.':
         NEXT()
         IF AT.DIGIT() DO TENTH := CH - '0'
         WHILE AT.DIGIT() DO NEXT()
   $)
   TEST NEGATIVE THEN RESULTIS -(10 * WHOLE + TENTH) OR RESULTIS 10 * WHOLE + TENTH
$)

// The program itself

// Counts the readings of the input by bands, and gives the number of those that are no
// relative humidity, being below 0 or above 100 per cent.
LET COUNT.READINGS(BAND) = VALOF
$( LET STRANGE = 0
   FOR I = 0 TO LAST DO BAND!I := 0
   NEXT()
   UNTIL CH = END.OF.INPUT DO
   $( LET READING = READ.TENTHS()
      TEST READING = NO.NUMBER
      THEN NEXT()                  // a newline, or another sign between the numbers
      OR TEST READING < 0 | READING > 1000
      THEN STRANGE := STRANGE + 1
      OR $( LET I = READING / WIDTH.OF.BAND
            IF I > LAST DO I := LAST
            BAND!I := BAND!I + 1
         $)
   $)
   RESULTIS STRANGE
$)

LET DRAW.ROW(I, MANY, EACH.STAR) BE
$( WRITE.TENTHS(I * WIDTH.OF.BAND, 5)
   WRITES(" to ")
   WRITE.TENTHS((I + 1) * WIDTH.OF.BAND, 5)
   WRITED(MANY, 5)
   IF MANY > 0 DO WRCH('*S')
   FOR STAR = 1 TO (MANY + EACH.STAR - 1) / EACH.STAR DO WRCH('**')
   NEWLINE()
$)

// Draws the bands from the first to the last that has a reading, if there is one.
LET DRAW(BAND) BE
$( LET FIRST, FINAL, MOST, EACH.STAR = 0, LAST, 0, 1
   FOR I = 0 TO LAST DO IF BAND!I > MOST DO MOST := BAND!I
   IF MOST = 0 DO RETURN
   WHILE BAND!FIRST = 0 DO FIRST := FIRST + 1
   WHILE BAND!FINAL = 0 DO FINAL := FINAL - 1
   UNTIL EACH.STAR * LONGEST.ROW >= MOST DO EACH.STAR := EACH.STAR + 1
   FOR I = FIRST TO FINAL DO DRAW.ROW(I, BAND!I, EACH.STAR)
   WRITES("A star is up to ")
   WRITEN(EACH.STAR)
   WRITES(" of the readings.*N")
$)

LET START() BE
$( LET BAND = VEC LAST
   LET STRANGE = COUNT.READINGS(BAND)
   DRAW(BAND)
   WRITES("No humidity: ")
   WRITEN(STRANGE)
   NEWLINE()
$)
