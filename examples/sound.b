// sound.b: the mean of the readings that are sound.
//
// The logger in the tower writes a note between its readings when somebody opens it, and
// 999.9 or another number past 100 per cent when its sensor was wet. A line with either is
// passed over by LOOP, which goes to the next turn of the loop. Both LOOPs in START end
// their lines, and need no semicolon there: a line may end in LOOP as it may in BREAK.
//
//     bcpl examples/sound.b < examples/sound.in

GLOBAL $( START:1; RDCH:13; WRCH:14; CH:100 $)

MANIFEST $( END.OF.INPUT = -1; NO.NUMBER = #100000 $)

// From library.b

// A string is the address of its words, with two bytes in each, the first in the high half.
// Byte 0 is the length, and the characters follow.
LET GETBYTE(STRING, INDEX) = VALOF
$( LET PAIR = STRING!(INDEX / 2)
   TEST INDEX REM 2 = 0 THEN RESULTIS PAIR >> 8 OR RESULTIS PAIR & 255
$)

// The whole number nearest to N / DIVISOR, for a DIVISOR above 0; a half goes away from
// zero. A plain quotient is cut toward zero.
LET ROUNDED(N, DIVISOR) = VALOF
$( LET QUOTIENT, REST = N / DIVISOR, N REM DIVISOR
   TEST N >= 0
   THEN IF REST >= DIVISOR - REST DO QUOTIENT := QUOTIENT + 1
   OR IF -REST >= DIVISOR + REST DO QUOTIENT := QUOTIENT - 1
   RESULTIS QUOTIENT
$)

LET NEWLINE() BE WRCH('*N')

LET SPACES(MANY) BE FOR I = 1 TO MANY DO WRCH('*S')

LET WRITES(STRING) BE
   FOR I = 1 TO GETBYTE(STRING, 0) DO WRCH(GETBYTE(STRING, I))

// A number at the right of WIDTH places; one that is too wide is written whole. The
// digits are taken from a negative number, since -32768 has no positive one.
LET WRITED(N, WIDTH) BE
$( LET DIGIT = VEC 4
   LET MANY, REST = 0, -N
   IF N < 0 DO WIDTH, REST := WIDTH - 1, N
   $( DIGIT!MANY := -(REST REM 10)
      MANY, REST := MANY + 1, REST / 10
   $) REPEATUNTIL REST = 0
   SPACES(WIDTH - MANY)
   IF N < 0 DO WRCH('-')
   FOR I = MANY - 1 TO 0 BY -1 DO WRCH(DIGIT!I + '0')
$)

// Tenths with a decimal point at the right of WIDTH places: 485 as 48.5, and -5 as -0.5.
LET WRITE.TENTHS(N, WIDTH) BE
$( LET WHOLE, TENTH = N / 10, N REM 10       // toward zero: -5 / 10 is 0, and -5 REM 10 is -5
   IF TENTH < 0 DO TENTH := -TENTH
   TEST N < 0 & WHOLE = 0
   THEN $( SPACES(WIDTH - 4); WRITES("-0") $)
   OR WRITED(WHOLE, WIDTH - 2)
   WRCH('.')
   WRCH(TENTH + '0')
$)

// CH is the next character that has not been used yet, and NEXT goes on to the one after
// it: call it once at the start. The carriage returns that some loggers write at every
// line's end are left out.
LET NEXT() BE
   CH := RDCH() REPEATWHILE CH = '*C'

LET AT.DIGIT() = ('0' <= CH & CH <= '9')

LET AT.LINE.END() = (CH = '*N' | CH = END.OF.INPUT)

LET SKIP.BLANKS() BE
   WHILE CH = '*S' | CH = '*T' DO NEXT()

// To the first character of the next line.
LET SKIP.LINE() BE
$( UNTIL AT.LINE.END() DO NEXT()
   IF CH = '*N' DO NEXT()
$)

// A number of digits only, or NO.NUMBER. One past 32767 is not noticed: see overflow.b.
LET READ.DIGITS() = VALOF
$( LET N = 0
   UNLESS AT.DIGIT() DO RESULTIS NO.NUMBER
   $( N := 10 * N + CH - '0'
      NEXT()
   $) REPEATWHILE AT.DIGIT()
   RESULTIS N
$)

// A reading in tenths, after any blanks; or NO.NUMBER. 48,5 and 48.5 are 485; 51 is 510;
// of 48.57 the 7 is passed over.
LET READ.TENTHS() = VALOF
$( LET WHOLE, TENTH, NEGATIVE = 0, 0, FALSE
   SKIP.BLANKS()
   IF CH = '-' DO
   $( NEGATIVE := TRUE
      NEXT()
   $)
   WHOLE := READ.DIGITS()
   IF WHOLE = NO.NUMBER DO RESULTIS NO.NUMBER
   SWITCHON CH INTO
   $( CASE ',':
      CASE '.':
         NEXT()
         IF AT.DIGIT() DO TENTH := CH - '0'
         WHILE AT.DIGIT() DO NEXT()
   $)
   TEST NEGATIVE THEN RESULTIS -(10 * WHOLE + TENTH) OR RESULTIS 10 * WHOLE + TENTH
$)

LET WRITE.COUNT(NAME, COUNT) BE
$( WRITES(NAME)
   WRITED(COUNT, 4)
   NEWLINE()
$)

LET START() BE
$( LET LINES, SOUND, SUM = 0, 0, 0
   NEXT()
   UNTIL CH = END.OF.INPUT DO
   $( LET READING = READ.TENTHS()
      SKIP.LINE()
      LINES := LINES + 1
      IF READING = NO.NUMBER DO LOOP      // a note
      IF READING > 1000 DO LOOP           // past 100 per cent: the sensor was wet
      SOUND, SUM := SOUND + 1, SUM + READING
   $)
   WRITE.COUNT("lines ", LINES)
   WRITE.COUNT("sound ", SOUND)
   IF SOUND > 0 DO
   $( WRITES("mean  ")
      WRITE.TENTHS(ROUNDED(SUM, SOUND), 4)
      NEWLINE()
   $)
$)
