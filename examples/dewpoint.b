// dewpoint.b: the dew point from temperature and relative humidity.
//
// A line of the input is a time, a temperature in degrees Celsius and a relative humidity
// in per cent. The pressure of water vapour in saturated air stands in a table, a vector
// with an entry for every second degree; between two entries it is taken to grow evenly.
// The vapour in the air has so many per cent of that pressure, and the dew point is the
// temperature at which it would be all: a showcase's glass that is colder gathers dew.
//
//     bcpl examples/dewpoint.b < examples/dewpoint.in

GLOBAL $( START:1; RDCH:13; WRCH:14; CH:100
          SATURATION:101 $)     // the table: pressures in pascals

MANIFEST $( END.OF.INPUT = -1; NO.NUMBER = #100000
            STEP = 20           // tenths of a degree from entry to entry
            LAST = 15           // the last entry, for 30 degrees
            TOO.HOT = 300 $)

// From library.b

// A string is the address of its words, with two bytes in each, the first in the high half.
// Byte 0 is the length, and the characters follow.
LET GETBYTE(STRING, INDEX) = VALOF
$( LET PAIR = STRING!(INDEX / 2)
   TEST INDEX REM 2 = 0 THEN RESULTIS PAIR >> 8 OR RESULTIS PAIR & 255
$)

LET PUTBYTE(STRING, INDEX, BYTE) BE
$( LET PLACE = STRING + INDEX / 2
   TEST INDEX REM 2 = 0
   THEN !PLACE := (BYTE << 8) | (!PLACE & 255)
   OR !PLACE := (!PLACE & #177400) | (BYTE & 255)
$)

// The whole number nearest to N / DIVISOR, for a DIVISOR above 0; a half goes away from
// zero. A plain quotient is cut toward zero.
LET ROUNDED(N, DIVISOR) = VALOF
$( LET QUOTIENT, REST = N / DIVISOR, N REM DIVISOR
   TEST N >= 0
   THEN IF REST >= DIVISOR - REST DO QUOTIENT := QUOTIENT + 1
   OR IF -REST >= DIVISOR + REST DO QUOTIENT := QUOTIENT - 1
   RESULTIS QUOTIENT
$)

LET NEWLINE() BE WRCH('*N')

LET SPACES(MANY) BE FOR I = 1 TO MANY DO WRCH('*S')

LET WRITES(STRING) BE
   FOR I = 1 TO GETBYTE(STRING, 0) DO WRCH(GETBYTE(STRING, I))

// A number at the right of WIDTH places; one that is too wide is written whole. The
// digits are taken from a negative number, since -32768 has no positive one.
LET WRITED(N, WIDTH) BE
$( LET DIGIT = VEC 4
   LET MANY, REST = 0, -N
   IF N < 0 DO WIDTH, REST := WIDTH - 1, N
   $( DIGIT!MANY := -(REST REM 10)
      MANY, REST := MANY + 1, REST / 10
   $) REPEATUNTIL REST = 0
   SPACES(WIDTH - MANY)
   IF N < 0 DO WRCH('-')
   FOR I = MANY - 1 TO 0 BY -1 DO WRCH(DIGIT!I + '0')
$)

// Tenths with a decimal point at the right of WIDTH places: 485 as 48.5, and -5 as -0.5.
LET WRITE.TENTHS(N, WIDTH) BE
$( LET WHOLE, TENTH = N / 10, N REM 10       // toward zero: -5 / 10 is 0, and -5 REM 10 is -5
   IF TENTH < 0 DO TENTH := -TENTH
   TEST N < 0 & WHOLE = 0
   THEN $( SPACES(WIDTH - 4); WRITES("-0") $)
   OR WRITED(WHOLE, WIDTH - 2)
   WRCH('.')
   WRCH(TENTH + '0')
$)

// CH is the next character that has not been used yet, and NEXT goes on to the one after
// it: call it once at the start. The carriage returns that some loggers write at every
// line's end are left out.
LET NEXT() BE
   CH := RDCH() REPEATWHILE CH = '*C'

LET AT.DIGIT() = ('0' <= CH & CH <= '9')

LET AT.LINE.END() = (CH = '*N' | CH = END.OF.INPUT)

LET SKIP.BLANKS() BE
   WHILE CH = '*S' | CH = '*T' DO NEXT()

// To the first character of the next line.
LET SKIP.LINE() BE
$( UNTIL AT.LINE.END() DO NEXT()
   IF CH = '*N' DO NEXT()
$)

// A number of digits only, or NO.NUMBER. One past 32767 is not noticed: see overflow.b.
LET READ.DIGITS() = VALOF
$( LET N = 0
   UNLESS AT.DIGIT() DO RESULTIS NO.NUMBER
   $( N := 10 * N + CH - '0'
      NEXT()
   $) REPEATWHILE AT.DIGIT()
   RESULTIS N
$)

// A reading in tenths, after any blanks; or NO.NUMBER. 48,5 and 48.5 are 485; 51 is 510;
// of 48.57 the 7 is passed over.
LET READ.TENTHS() = VALOF
$( LET WHOLE, TENTH, NEGATIVE = 0, 0, FALSE
   SKIP.BLANKS()
   IF CH = '-' DO
   $( NEGATIVE := TRUE
      NEXT()
   $)
   WHOLE := READ.DIGITS()
   IF WHOLE = NO.NUMBER DO RESULTIS NO.NUMBER
   SWITCHON CH INTO
   $( CASE ',':
      CASE '.':
         NEXT()
         IF AT.DIGIT() DO TENTH := CH - '0'
         WHILE AT.DIGIT() DO NEXT()
   $)
   TEST NEGATIVE THEN RESULTIS -(10 * WHOLE + TENTH) OR RESULTIS 10 * WHOLE + TENTH
$)

// The characters up to END.SIGN or the line's end, as a string in STRING; those beyond
// MOST are passed over. STRING is a vector with room for them and for byte 0: VEC 10 has
// 22 bytes. It is cleared first, for PUTBYTE reads the word that it changes, and a word
// of a vector may not be read before something is stored in it.
LET READ.STRING(STRING, MOST, END.SIGN) BE
$( LET LENGTH = 0
   FOR I = 0 TO MOST / 2 DO STRING!I := 0
   UNTIL CH = END.SIGN | AT.LINE.END() DO
   $( IF LENGTH < MOST DO
      $( LENGTH := LENGTH + 1
         PUTBYTE(STRING, LENGTH, CH)
      $)
      NEXT()
   $)
   PUTBYTE(STRING, 0, LENGTH)
$)

// The program itself

// Vectors have no first values: every entry is stored by a command.
LET FILL.TABLE(T) BE
$( T!0, T!1, T!2, T!3 := 611, 706, 814, 935              // 0, 2, 4 and 6 degrees
   T!4, T!5, T!6, T!7 := 1073, 1228, 1403, 1599
   T!8, T!9, T!10, T!11 := 1818, 2064, 2339, 2645
   T!12, T!13, T!14, T!LAST := 2985, 3363, 3782, 4246    // 24, 26, 28 and 30 degrees
   SATURATION := T
$)

// The whole number nearest to A * B / C, where A * B itself may be far past 32767. B is
// taken bit by bit, the highest first, and C is divided out at every bit, so that nothing
// grows past 2 * C + A.
LET MULDIV(A, B, C) = VALOF
$( LET QUOTIENT, REST = 0, 0
   FOR BIT = 14 TO 0 BY -1 DO
   $( QUOTIENT, REST := 2 * QUOTIENT, 2 * REST
      UNLESS ((B >> BIT) & 1) = 0 DO REST := REST + A
      QUOTIENT, REST := QUOTIENT + REST / C, REST REM C
   $)
   IF REST >= C - REST DO QUOTIENT := QUOTIENT + 1
   RESULTIS QUOTIENT
$)

// The pressure in saturated air of a temperature from 0 to below 30 degrees.
LET PRESSURE.AT(TEMPERATURE) = VALOF
$( LET I, REST = TEMPERATURE / STEP, TEMPERATURE REM STEP
   LET RISE = SATURATION!(I + 1) - SATURATION!I
   RESULTIS SATURATION!I + ROUNDED(RISE * REST, STEP)
$)

// The temperature at which air with this pressure of vapour is saturated.
LET TEMPERATURE.AT(PRESSURE) = VALOF
$( LET I = 0
   UNTIL PRESSURE < SATURATION!(I + 1) DO I := I + 1
   $( LET RISE = SATURATION!(I + 1) - SATURATION!I
      RESULTIS I * STEP + ROUNDED((PRESSURE - SATURATION!I) * STEP, RISE)
   $)
$)

LET WRITE.DEW.POINT(TEMPERATURE, HUMIDITY) BE
$( LET PRESSURE = MULDIV(PRESSURE.AT(TEMPERATURE), HUMIDITY, 1000)
   TEST PRESSURE < SATURATION!0
   THEN WRITES("    below 0")
   OR $( LET DEW.POINT = TEMPERATURE.AT(PRESSURE)
         WRITE.TENTHS(DEW.POINT, 11)
         WRITE.TENTHS(TEMPERATURE - DEW.POINT, 13)
      $)
$)

LET START() BE
$( LET TABLE = VEC LAST
   LET TIME = VEC 2
   FILL.TABLE(TABLE)
   WRITES("time   degrees  per cent  dew point  may cool by*N")
   NEXT()
   UNTIL CH = END.OF.INPUT DO
   $( LET TEMPERATURE, HUMIDITY = NO.NUMBER, NO.NUMBER
      READ.STRING(TIME, 5, '*S')
      WRITES(TIME)
      TEMPERATURE := READ.TENTHS()
      HUMIDITY := READ.TENTHS()
      TEST TEMPERATURE = NO.NUMBER | HUMIDITY < 0 | HUMIDITY > 1000
      THEN WRITES("  no reading")
      OR $( WRITE.TENTHS(TEMPERATURE, 9)
            WRITE.TENTHS(HUMIDITY, 10)
            TEST TEMPERATURE < 0 | TEMPERATURE >= TOO.HOT
            THEN WRITES("  not in the table")
            OR WRITE.DEW.POINT(TEMPERATURE, HUMIDITY)
         $)
      NEWLINE()
      SKIP.LINE()
   $)
$)
