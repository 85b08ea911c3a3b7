// daily.b: the lowest, the mean and the highest relative humidity of each day.
//
// A logger's line is a date, a time and a reading in per cent, as 2024-03-04 08:00 48,5.
// Readings are kept in tenths, so that whole numbers are enough. Where the logger lost a
// reading it writes --,-: such lines are counted, and take no part in the rest.
//
//     bcpl examples/daily.b < examples/daily.in

GLOBAL $( START:1; RDCH:13; WRCH:14; CH:100 $)

MANIFEST $( END.OF.INPUT = -1; NO.NUMBER = #100000 $)

// A summary is a vector of these words. SUM is the sum of the readings' differences from
// FIRST: the sum of the readings themselves may grow past 32767, as overflow.b shows.
MANIFEST $( COUNT = 0; FIRST = 1; SUM = 2; LOWEST = 3; HIGHEST = 4 $)

// From library.b

// A string is the address of its words, with two bytes in each, the first in the high half.
// Byte 0 is the length, and the characters follow.
LET GETBYTE(STRING, INDEX) = VALOF
$( LET PAIR = STRING!(INDEX / 2)
   TEST INDEX REM 2 = 0 THEN RESULTIS PAIR >> 8 OR RESULTIS PAIR & 255
$)

LET PUTBYTE(STRING, INDEX, BYTE) BE
$( LET PLACE = STRING + INDEX / 2
   TEST INDEX REM 2 = 0
   THEN !PLACE := (BYTE << 8) | (!PLACE & 255)
   OR !PLACE := (!PLACE & #177400) | (BYTE & 255)
$)

// Are two strings the same? Their lengths are compared first, as byte 0.
LET SAME(STRING, OTHER) = VALOF
$( FOR I = 0 TO GETBYTE(STRING, 0) DO
      UNLESS GETBYTE(STRING, I) = GETBYTE(OTHER, I) DO RESULTIS FALSE
   RESULTIS TRUE
$)

LET COPY.STRING(STRING, COPY) BE
   FOR I = 0 TO GETBYTE(STRING, 0) / 2 DO COPY!I := STRING!I

// The whole number nearest to N / DIVISOR, for a DIVISOR above 0; a half goes away from
// zero. A plain quotient is cut toward zero.
LET ROUNDED(N, DIVISOR) = VALOF
$( LET QUOTIENT, REST = N / DIVISOR, N REM DIVISOR
   TEST N >= 0
   THEN IF REST >= DIVISOR - REST DO QUOTIENT := QUOTIENT + 1
   OR IF -REST >= DIVISOR + REST DO QUOTIENT := QUOTIENT - 1
   RESULTIS QUOTIENT
$)

LET NEWLINE() BE WRCH('*N')

LET SPACES(MANY) BE FOR I = 1 TO MANY DO WRCH('*S')

LET WRITES(STRING) BE
   FOR I = 1 TO GETBYTE(STRING, 0) DO WRCH(GETBYTE(STRING, I))

// A number at the right of WIDTH places; one that is too wide is written whole. The
// digits are taken from a negative number, since -32768 has no positive one.
LET WRITED(N, WIDTH) BE
$( LET DIGIT = VEC 4
   LET MANY, REST = 0, -N
   IF N < 0 DO WIDTH, REST := WIDTH - 1, N
   $( DIGIT!MANY := -(REST REM 10)
      MANY, REST := MANY + 1, REST / 10
   $) REPEATUNTIL REST = 0
   SPACES(WIDTH - MANY)
   IF N < 0 DO WRCH('-')
   FOR I = MANY - 1 TO 0 BY -1 DO WRCH(DIGIT!I + '0')
$)

// Tenths with a decimal point at the right of WIDTH places: 485 as 48.5, and -5 as -0.5.
LET WRITE.TENTHS(N, WIDTH) BE
$( LET WHOLE, TENTH = N / 10, N REM 10       // toward zero: -5 / 10 is 0, and -5 REM 10 is -5
   IF TENTH < 0 DO TENTH := -TENTH
   TEST N < 0 & WHOLE = 0
   THEN $( SPACES(WIDTH - 4); WRITES("-0") $)
   OR WRITED(WHOLE, WIDTH - 2)
   WRCH('.')
   WRCH(TENTH + '0')
$)

// CH is the next character that has not been used yet, and NEXT goes on to the one after
// it: call it once at the start. The carriage returns that some loggers write at every
// line's end are left out.
LET NEXT() BE
   CH := RDCH() REPEATWHILE CH = '*C'

LET AT.DIGIT() = ('0' <= CH & CH <= '9')

LET AT.LINE.END() = (CH = '*N' | CH = END.OF.INPUT)

LET SKIP.BLANKS() BE
   WHILE CH = '*S' | CH = '*T' DO NEXT()

// To the first character of the next line.
LET SKIP.LINE() BE
$( UNTIL AT.LINE.END() DO NEXT()
   IF CH = '*N' DO NEXT()
$)

// A number of digits only, or NO.NUMBER. One past 32767 is not noticed: see overflow.b.
LET READ.DIGITS() = VALOF
$( LET N = 0
   UNLESS AT.DIGIT() DO RESULTIS NO.NUMBER
   $( N := 10 * N + CH - '0'
      NEXT()
   $) REPEATWHILE AT.DIGIT()
   RESULTIS N
$)

// A reading in tenths, after any blanks; or NO.NUMBER. 48,5 and 48.5 are 485; 51 is 510;
// of 48.57 the 7 is passed over.
LET READ.TENTHS() = VALOF
$( LET WHOLE, TENTH, NEGATIVE = 0, 0, FALSE
   SKIP.BLANKS()
   IF CH = '-' DO
   $( NEGATIVE := TRUE
      NEXT()
   $)
   WHOLE := READ.DIGITS()
   IF WHOLE = NO.NUMBER DO RESULTIS NO.NUMBER
   SWITCHON CH INTO
   $( CASE ',':
      CASE '.':
         NEXT()
         IF AT.DIGIT() DO TENTH := CH - '0'
         WHILE AT.DIGIT() DO NEXT()
   $)
   TEST NEGATIVE THEN RESULTIS -(10 * WHOLE + TENTH) OR RESULTIS 10 * WHOLE + TENTH
$)

// The characters up to END.SIGN or the line's end, as a string in STRING; those beyond
// MOST are passed over. STRING is a vector with room for them and for byte 0: VEC 10 has
// 22 bytes. It is cleared first, for PUTBYTE reads the word that it changes, and a word
// of a vector may not be read before something is stored in it.
LET READ.STRING(STRING, MOST, END.SIGN) BE
$( LET LENGTH = 0
   FOR I = 0 TO MOST / 2 DO STRING!I := 0
   UNTIL CH = END.SIGN | AT.LINE.END() DO
   $( IF LENGTH < MOST DO
      $( LENGTH := LENGTH + 1
         PUTBYTE(STRING, LENGTH, CH)
      $)
      NEXT()
   $)
   PUTBYTE(STRING, 0, LENGTH)
$)

// The program itself

LET CLEAR(SUMMARY) BE SUMMARY!COUNT, SUMMARY!SUM := 0, 0

LET ADD(SUMMARY, READING) BE
$( IF SUMMARY!COUNT = 0 DO
      SUMMARY!FIRST, SUMMARY!LOWEST, SUMMARY!HIGHEST := READING, READING, READING
   SUMMARY!COUNT := SUMMARY!COUNT + 1
   SUMMARY!SUM := SUMMARY!SUM + (READING - SUMMARY!FIRST)
   IF READING < SUMMARY!LOWEST DO SUMMARY!LOWEST := READING
   IF READING > SUMMARY!HIGHEST DO SUMMARY!HIGHEST := READING
$)

// A line of the table. A summary without readings has no mean.
LET WRITE.SUMMARY(NAME, SUMMARY) BE
$( WRITES(NAME)
   SPACES(10 - GETBYTE(NAME, 0))
   WRITED(SUMMARY!COUNT, 10)
   UNLESS SUMMARY!COUNT = 0 DO
   $( WRITE.TENTHS(SUMMARY!LOWEST, 10)
      WRITE.TENTHS(SUMMARY!FIRST + ROUNDED(SUMMARY!SUM, SUMMARY!COUNT), 10)
      WRITE.TENTHS(SUMMARY!HIGHEST, 10)
   $)
   NEWLINE()
$)

// The date of the next line that is not blank; at the input's end an empty string.
LET READ.DATE(DATE) BE
$( WHILE CH = '*N' | CH = '*S' DO NEXT()
   READ.STRING(DATE, 10, '*S')
$)

// The reading of a line whose date has been read.
LET READ.REST() = VALOF
$( LET TIME = VEC 2
   LET READING = NO.NUMBER
   SKIP.BLANKS()
   READ.STRING(TIME, 5, '*S')
   READING := READ.TENTHS()
   SKIP.LINE()
   RESULTIS READING
$)

LET START() BE
$( LET DATE = VEC 5
   LET DATE.OF.LINE = VEC 5
   LET DAY = VEC 4
   LET ALL.DAYS = VEC 4
   LET LOST = 0
   CLEAR(ALL.DAYS)
   WRITES("date        readings    lowest      mean   highest*N")
   NEXT()
   READ.DATE(DATE.OF.LINE)
   UNTIL SAME(DATE.OF.LINE, "") DO
   $( COPY.STRING(DATE.OF.LINE, DATE)
      CLEAR(DAY)
      WHILE SAME(DATE.OF.LINE, DATE) DO
      $( LET READING = READ.REST()
         TEST READING = NO.NUMBER
         THEN LOST := LOST + 1
         OR $( ADD(DAY, READING)
               ADD(ALL.DAYS, READING)
            $)
         READ.DATE(DATE.OF.LINE)
      $)
      WRITE.SUMMARY(DATE, DAY)
   $)
   WRITE.SUMMARY("all days", ALL.DAYS)
   WRITES("lost      ")
   WRITED(LOST, 10)
   NEWLINE()
$)
