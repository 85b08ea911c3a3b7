// overflow.b: why a mean turns negative, and two ways to repair it.
//
// A word has 16 bits and holds the numbers from -32768 to 32767. A sum past 32767 goes on
// at -32768, and nothing is said. A day's readings, one every quarter of an hour and about
// 500 tenths each, add up to some 48,000: the plain sum, and with it the mean, is negative.
// Repair 1 adds up how far each reading is from the first one, which stays small. Repair 2
// keeps the sum in two words and carries by hand from the one to the other.
//
//     bcpl examples/overflow.b < examples/overflow.in

GLOBAL $( START:1; RDCH:13; WRCH:14; CH:100
          COUNT:101          // how many readings there were
          FIRST:102          // the first of them
          PLAIN.SUM:103
          TURNED:104         // how many had been added when the plain sum turned negative
          DIFFERENCES:105    // repair 1: the sum of the differences from FIRST
          HIGH:106           // repair 2: the sum is 10000 * HIGH + LOW,
          LOW:107 $)         // and LOW is 0 to 9999

MANIFEST $( END.OF.INPUT = -1; NO.NUMBER = #100000 $)

// From library.b

// A string is the address of its words, with two bytes in each, the first in the high half.
// Byte 0 is the length, and the characters follow.
LET GETBYTE(STRING, INDEX) = VALOF
$( LET PAIR = STRING!(INDEX / 2)
   TEST INDEX REM 2 = 0 THEN RESULTIS PAIR >> 8 OR RESULTIS PAIR & 255
$)

// The whole number nearest to N / DIVISOR, for a DIVISOR above 0; a half goes away from
// zero. A plain quotient is cut toward zero.
LET ROUNDED(N, DIVISOR) = VALOF
$( LET QUOTIENT, REST = N / DIVISOR, N REM DIVISOR
   TEST N >= 0
   THEN IF REST >= DIVISOR - REST DO QUOTIENT := QUOTIENT + 1
   OR IF -REST >= DIVISOR + REST DO QUOTIENT := QUOTIENT - 1
   RESULTIS QUOTIENT
$)

LET NEWLINE() BE WRCH('*N')

LET SPACES(MANY) BE FOR I = 1 TO MANY DO WRCH('*S')

LET WRITES(STRING) BE
   FOR I = 1 TO GETBYTE(STRING, 0) DO WRCH(GETBYTE(STRING, I))

// A number at the right of WIDTH places; one that is too wide is written whole. The
// digits are taken from a negative number, since -32768 has no positive one.
LET WRITED(N, WIDTH) BE
$( LET DIGIT = VEC 4
   LET MANY, REST = 0, -N
   IF N < 0 DO WIDTH, REST := WIDTH - 1, N
   $( DIGIT!MANY := -(REST REM 10)
      MANY, REST := MANY + 1, REST / 10
   $) REPEATUNTIL REST = 0
   SPACES(WIDTH - MANY)
   IF N < 0 DO WRCH('-')
   FOR I = MANY - 1 TO 0 BY -1 DO WRCH(DIGIT!I + '0')
$)

LET WRITEN(N) BE WRITED(N, 0)

// The last digits of a number that is not negative, with leading zeros: 8 as 08.
LET WRITEZ(N, DIGITS) BE
$( IF DIGITS > 1 DO WRITEZ(N / 10, DIGITS - 1)
   WRCH(N REM 10 + '0')
$)

// Tenths with a decimal point at the right of WIDTH places: 485 as 48.5, and -5 as -0.5.
LET WRITE.TENTHS(N, WIDTH) BE
$( LET WHOLE, TENTH = N / 10, N REM 10       // toward zero: -5 / 10 is 0, and -5 REM 10 is -5
   IF TENTH < 0 DO TENTH := -TENTH
   TEST N < 0 & WHOLE = 0
   THEN $( SPACES(WIDTH - 4); WRITES("-0") $)
   OR WRITED(WHOLE, WIDTH - 2)
   WRCH('.')
   WRCH(TENTH + '0')
$)

// CH is the next character that has not been used yet, and NEXT goes on to the one after
// it: call it once at the start. The carriage returns that some loggers write at every
// line's end are left out.
LET NEXT() BE
   CH := RDCH() REPEATWHILE CH = '*C'

LET AT.DIGIT() = ('0' <= CH & CH <= '9')

LET SKIP.BLANKS() BE
   WHILE CH = '*S' | CH = '*T' DO NEXT()

// A number of digits only, or NO.NUMBER. One past 32767 is not noticed: see overflow.b.
LET READ.DIGITS() = VALOF
$( LET N = 0
   UNLESS AT.DIGIT() DO RESULTIS NO.NUMBER
   $( N := 10 * N + CH - '0'
      NEXT()
   $) REPEATWHILE AT.DIGIT()
   RESULTIS N
$)

// A reading in tenths, after any blanks; or NO.NUMBER. 48,5 and 48.5 are 485; 51 is 510;
// of 48.57 the 7 is passed over.
LET READ.TENTHS() = VALOF
$( LET WHOLE, TENTH, NEGATIVE = 0, 0, FALSE
   SKIP.BLANKS()
   IF CH = '-' DO
   $( NEGATIVE := TRUE
      NEXT()
   $)
   WHOLE := READ.DIGITS()
   IF WHOLE = NO.NUMBER DO RESULTIS NO.NUMBER
   SWITCHON CH INTO
   $( CASE ',':
      CASE '.':
         NEXT()
         IF AT.DIGIT() DO TENTH := CH - '0'
         WHILE AT.DIGIT() DO NEXT()
   $)
   TEST NEGATIVE THEN RESULTIS -(10 * WHOLE + TENTH) OR RESULTIS 10 * WHOLE + TENTH
$)

// The program itself

LET ADD(READING) BE
$( IF COUNT = 0 DO FIRST := READING
   COUNT := COUNT + 1

   PLAIN.SUM := PLAIN.SUM + READING
   IF PLAIN.SUM < 0 & TURNED = 0 DO TURNED := COUNT

   DIFFERENCES := DIFFERENCES + (READING - FIRST)

   LOW := LOW + READING
   HIGH, LOW := HIGH + LOW / 10000, LOW REM 10000
$)

// The sum in two words divided by COUNT, as it is done by hand: HIGH, then one digit of LOW
// after the other. What is left over is below COUNT, and so ten times that is no sum past
// 32767 for up to 3000 readings.
LET LONG.MEAN() = VALOF
$( LET QUOTIENT, REST = HIGH / COUNT, HIGH REM COUNT
   LET POWER = 1000
   UNTIL POWER = 0 DO
   $( REST := 10 * REST + LOW / POWER REM 10
      QUOTIENT, REST := 10 * QUOTIENT + REST / COUNT, REST REM COUNT
      POWER := POWER / 10
   $)
   IF REST >= COUNT - REST DO QUOTIENT := QUOTIENT + 1
   RESULTIS QUOTIENT
$)

LET WRITE.MEAN(TENTHS) BE
$( WRITES(" mean")
   WRITE.TENTHS(TENTHS, 6)
   NEWLINE()
$)

LET START() BE
$( COUNT, PLAIN.SUM, TURNED, DIFFERENCES, HIGH, LOW := 0, 0, 0, 0, 0, 0
   NEXT()
   UNTIL CH = END.OF.INPUT DO
   $( LET READING = READ.TENTHS()
      TEST READING = NO.NUMBER THEN NEXT() OR ADD(READING)
   $)
   WRITES("readings     ")
   WRITED(COUNT, 6)
   NEWLINE()
   IF COUNT = 0 DO RETURN
   WRITES("plain sum    ")
   WRITED(PLAIN.SUM, 6)
   WRITE.MEAN(ROUNDED(PLAIN.SUM, COUNT))
   IF TURNED > 0 DO
   $( WRITES("it turned negative at reading ")
      WRITEN(TURNED)
      NEWLINE()
   $)
   WRITES("differences  ")
   WRITED(DIFFERENCES, 6)
   WRITE.MEAN(FIRST + ROUNDED(DIFFERENCES, COUNT))
   WRITES("in two words ")
   WRITED(HIGH, 2)
   WRITEZ(LOW, 4)
   WRITE.MEAN(LONG.MEAN())
$)
