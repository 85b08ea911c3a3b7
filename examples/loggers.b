// loggers.b: the readings of two loggers side by side.
//
// The input is the lines of the first logger, a line that begins with =, and the lines of
// the second. A line is a time and a reading, as 08:00 48,5, and later times stand below
// earlier ones. A logger may have missed a time: the two lists are merged by time, as two
// sorted piles of cards are, and a reading without a partner stands alone.
//
//     bcpl examples/loggers.b < examples/loggers.in

GLOBAL $( START:1; RDCH:13; WRCH:14; CH:100 $)

// A logger is a vector: word 0 is the number of readings, and reading I has the words
// 2 * I - 1, its time in minutes, and 2 * I, its value in tenths.
MANIFEST $( END.OF.INPUT = -1; NO.NUMBER = #100000
            MOST.READINGS = 100; WORDS = 200
            AFTER.ALL = 32767 $)       // a time later than every other

// From library.b

// A string is the address of its words, with two bytes in each, the first in the high half.
// Byte 0 is the length, and the characters follow.
LET GETBYTE(STRING, INDEX) = VALOF
$( LET PAIR = STRING!(INDEX / 2)
   TEST INDEX REM 2 = 0 THEN RESULTIS PAIR >> 8 OR RESULTIS PAIR & 255
$)

// The whole number nearest to N / DIVISOR, for a DIVISOR above 0; a half goes away from
// zero. A plain quotient is cut toward zero.
LET ROUNDED(N, DIVISOR) = VALOF
$( LET QUOTIENT, REST = N / DIVISOR, N REM DIVISOR
   TEST N >= 0
   THEN IF REST >= DIVISOR - REST DO QUOTIENT := QUOTIENT + 1
   OR IF -REST >= DIVISOR + REST DO QUOTIENT := QUOTIENT - 1
   RESULTIS QUOTIENT
$)

LET NEWLINE() BE WRCH('*N')

LET SPACES(MANY) BE FOR I = 1 TO MANY DO WRCH('*S')

LET WRITES(STRING) BE
   FOR I = 1 TO GETBYTE(STRING, 0) DO WRCH(GETBYTE(STRING, I))

// A number at the right of WIDTH places; one that is too wide is written whole. The
// digits are taken from a negative number, since -32768 has no positive one.
LET WRITED(N, WIDTH) BE
$( LET DIGIT = VEC 4
   LET MANY, REST = 0, -N
   IF N < 0 DO WIDTH, REST := WIDTH - 1, N
   $( DIGIT!MANY := -(REST REM 10)
      MANY, REST := MANY + 1, REST / 10
   $) REPEATUNTIL REST = 0
   SPACES(WIDTH - MANY)
   IF N < 0 DO WRCH('-')
   FOR I = MANY - 1 TO 0 BY -1 DO WRCH(DIGIT!I + '0')
$)

LET WRITEN(N) BE WRITED(N, 0)

// The last digits of a number that is not negative, with leading zeros: 8 as 08.
LET WRITEZ(N, DIGITS) BE
$( IF DIGITS > 1 DO WRITEZ(N / 10, DIGITS - 1)
   WRCH(N REM 10 + '0')
$)

// Tenths with a decimal point at the right of WIDTH places: 485 as 48.5, and -5 as -0.5.
LET WRITE.TENTHS(N, WIDTH) BE
$( LET WHOLE, TENTH = N / 10, N REM 10       // toward zero: -5 / 10 is 0, and -5 REM 10 is -5
   IF TENTH < 0 DO TENTH := -TENTH
   TEST N < 0 & WHOLE = 0
   THEN $( SPACES(WIDTH - 4); WRITES("-0") $)
   OR WRITED(WHOLE, WIDTH - 2)
   WRCH('.')
   WRCH(TENTH + '0')
$)

// CH is the next character that has not been used yet, and NEXT goes on to the one after
// it: call it once at the start. The carriage returns that some loggers write at every
// line's end are left out.
LET NEXT() BE
   CH := RDCH() REPEATWHILE CH = '*C'

LET AT.DIGIT() = ('0' <= CH & CH <= '9')

LET AT.LINE.END() = (CH = '*N' | CH = END.OF.INPUT)

LET SKIP.BLANKS() BE
   WHILE CH = '*S' | CH = '*T' DO NEXT()

// To the first character of the next line.
LET SKIP.LINE() BE
$( UNTIL AT.LINE.END() DO NEXT()
   IF CH = '*N' DO NEXT()
$)

// A number of digits only, or NO.NUMBER. One past 32767 is not noticed: see overflow.b.
LET READ.DIGITS() = VALOF
$( LET N = 0
   UNLESS AT.DIGIT() DO RESULTIS NO.NUMBER
   $( N := 10 * N + CH - '0'
      NEXT()
   $) REPEATWHILE AT.DIGIT()
   RESULTIS N
$)

// A reading in tenths, after any blanks; or NO.NUMBER. 48,5 and 48.5 are 485; 51 is 510;
// of 48.57 the 7 is passed over.
LET READ.TENTHS() = VALOF
$( LET WHOLE, TENTH, NEGATIVE = 0, 0, FALSE
   SKIP.BLANKS()
   IF CH = '-' DO
   $( NEGATIVE := TRUE
      NEXT()
   $)
   WHOLE := READ.DIGITS()
   IF WHOLE = NO.NUMBER DO RESULTIS NO.NUMBER
   SWITCHON CH INTO
   $( CASE ',':
      CASE '.':
         NEXT()
         IF AT.DIGIT() DO TENTH := CH - '0'
         WHILE AT.DIGIT() DO NEXT()
   $)
   TEST NEGATIVE THEN RESULTIS -(10 * WHOLE + TENTH) OR RESULTIS 10 * WHOLE + TENTH
$)

// The program itself

LET TIME.OF(LOGGER, I) = VALOF
   TEST I > LOGGER!0 THEN RESULTIS AFTER.ALL OR RESULTIS LOGGER!(2 * I - 1)

LET READING.OF(LOGGER, I) = LOGGER!(2 * I)

// A time as 08:05, in minutes, or NO.NUMBER.
LET READ.TIME() = VALOF
$( LET HOUR, MINUTE = READ.DIGITS(), NO.NUMBER
   IF HOUR = NO.NUMBER | CH ~= ':' DO RESULTIS NO.NUMBER
   NEXT()
   MINUTE := READ.DIGITS()
   IF MINUTE = NO.NUMBER DO RESULTIS NO.NUMBER
   RESULTIS 60 * HOUR + MINUTE
$)

LET WRITE.TIME(MINUTES) BE
$( WRITEZ(MINUTES / 60, 2)
   WRCH(':')
   WRITEZ(MINUTES REM 60, 2)
$)

// Reads the lines up to the one with = or to the input's end. Lines that lack a time or a
// reading are passed over, and so are those for which the vector has no room.
LET READ.LOGGER(LOGGER) BE
$( LOGGER!0 := 0
   UNTIL CH = '=' | CH = END.OF.INPUT DO
   $( LET TIME, READING = READ.TIME(), READ.TENTHS()
      SKIP.LINE()
      UNLESS TIME = NO.NUMBER | READING = NO.NUMBER | LOGGER!0 = MOST.READINGS DO
      $( LET LAST = LOGGER!0 + 1
         LOGGER!0 := LAST
         LOGGER!(2 * LAST - 1), LOGGER!(2 * LAST) := TIME, READING
      $)
   $)
$)

// One line of the table; a value that is missing is NO.NUMBER.
LET WRITE.LINE(TIME, FIRST, SECOND) BE
$( WRITE.TIME(TIME)
   TEST FIRST = NO.NUMBER THEN WRITES("       -") OR WRITE.TENTHS(FIRST, 8)
   TEST SECOND = NO.NUMBER THEN WRITES("       -") OR WRITE.TENTHS(SECOND, 8)
   UNLESS FIRST = NO.NUMBER | SECOND = NO.NUMBER DO WRITE.TENTHS(SECOND - FIRST, 12)
   NEWLINE()
$)

// Writes both loggers, and at the end the number and the mean of the differences.
LET MERGE(ONE, TWO) BE
$( LET I, J, PAIRS, SUM = 1, 1, 0, 0
   UNTIL I > ONE!0 & J > TWO!0 DO
   $( LET TIME.ONE, TIME.TWO = TIME.OF(ONE, I), TIME.OF(TWO, J)
      LET TIME = TIME.ONE
      LET FIRST, SECOND = NO.NUMBER, NO.NUMBER
      IF TIME.TWO < TIME DO TIME := TIME.TWO
      IF TIME.ONE = TIME DO FIRST, I := READING.OF(ONE, I), I + 1
      IF TIME.TWO = TIME DO SECOND, J := READING.OF(TWO, J), J + 1
      IF TIME.ONE = TIME.TWO DO SUM, PAIRS := SUM + (SECOND - FIRST), PAIRS + 1
      WRITE.LINE(TIME, FIRST, SECOND)
   $)
   WRITES("differences ")
   WRITEN(PAIRS)
   IF PAIRS > 0 DO
   $( WRITES(", their mean ")
      WRITE.TENTHS(ROUNDED(SUM, PAIRS), 0)
   $)
   NEWLINE()
$)

LET START() BE
$( LET ONE = VEC WORDS
   LET TWO = VEC WORDS
   NEXT()
   READ.LOGGER(ONE)
   SKIP.LINE()
   READ.LOGGER(TWO)
   WRITES("time    first  second  difference*N")
   MERGE(ONE, TWO)
$)
