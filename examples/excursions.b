// excursions.b: how often and for how long the humidity was outside 45 to 55 per cent.
//
// A line of the input is a time and a reading, as 2024-03-04T13:00 55,2; a line without a
// reading is passed over. An excursion is a run of readings one after another that are all
// outside; 45.0 and 55.0 themselves are inside. Each excursion is told when it ends, and
// the last one may end with the input.
//
//     bcpl examples/excursions.b < examples/excursions.in

GLOBAL $( START:1; RDCH:13; WRCH:14; CH:100
          READINGS:101             // how many there were
          OUTSIDE:102              // how many of them were outside
          EXCURSIONS:103           // how many runs
          LENGTH:104               // of the run that is going on, or 0
          LOWEST:105; HIGHEST:106  // readings of that run
          LONGEST:107 $)           // the longest run's length

MANIFEST $( END.OF.INPUT = -1; NO.NUMBER = #100000
            LEAST.ALLOWED = 450; MOST.ALLOWED = 550 $)     // tenths of a per cent

// From library.b

// A string is the address of its words, with two bytes in each, the first in the high half.
// Byte 0 is the length, and the characters follow.
LET GETBYTE(STRING, INDEX) = VALOF
$( LET PAIR = STRING!(INDEX / 2)
   TEST INDEX REM 2 = 0 THEN RESULTIS PAIR >> 8 OR RESULTIS PAIR & 255
$)

LET PUTBYTE(STRING, INDEX, BYTE) BE
$( LET PLACE = STRING + INDEX / 2
   TEST INDEX REM 2 = 0
   THEN !PLACE := (BYTE << 8) | (!PLACE & 255)
   OR !PLACE := (!PLACE & #177400) | (BYTE & 255)
$)

LET COPY.STRING(STRING, COPY) BE
   FOR I = 0 TO GETBYTE(STRING, 0) / 2 DO COPY!I := STRING!I

LET NEWLINE() BE WRCH('*N')

LET SPACES(MANY) BE FOR I = 1 TO MANY DO WRCH('*S')

LET WRITES(STRING) BE
   FOR I = 1 TO GETBYTE(STRING, 0) DO WRCH(GETBYTE(STRING, I))

// A number at the right of WIDTH places; one that is too wide is written whole. The
// digits are taken from a negative number, since -32768 has no positive one.
LET WRITED(N, WIDTH) BE
$( LET DIGIT = VEC 4
   LET MANY, REST = 0, -N
   IF N < 0 DO WIDTH, REST := WIDTH - 1, N
   $( DIGIT!MANY := -(REST REM 10)
      MANY, REST := MANY + 1, REST / 10
   $) REPEATUNTIL REST = 0
   SPACES(WIDTH - MANY)
   IF N < 0 DO WRCH('-')
   FOR I = MANY - 1 TO 0 BY -1 DO WRCH(DIGIT!I + '0')
$)

// Tenths with a decimal point at the right of WIDTH places: 485 as 48.5, and -5 as -0.5.
LET WRITE.TENTHS(N, WIDTH) BE
$( LET WHOLE, TENTH = N / 10, N REM 10       // toward zero: -5 / 10 is 0, and -5 REM 10 is -5
   IF TENTH < 0 DO TENTH := -TENTH
   TEST N < 0 & WHOLE = 0
   THEN $( SPACES(WIDTH - 4); WRITES("-0") $)
   OR WRITED(WHOLE, WIDTH - 2)
   WRCH('.')
   WRCH(TENTH + '0')
$)

// CH is the next character that has not been used yet, and NEXT goes on to the one after
// it: call it once at the start. The carriage returns that some loggers write at every
// line's end are left out.
LET NEXT() BE
   CH := RDCH() REPEATWHILE CH = '*C'

LET AT.DIGIT() = ('0' <= CH & CH <= '9')

LET AT.LINE.END() = (CH = '*N' | CH = END.OF.INPUT)

LET SKIP.BLANKS() BE
   WHILE CH = '*S' | CH = '*T' DO NEXT()

// To the first character of the next line.
LET SKIP.LINE() BE
$( UNTIL AT.LINE.END() DO NEXT()
   IF CH = '*N' DO NEXT()
$)

// A number of digits only, or NO.NUMBER. One past 32767 is not noticed: see overflow.b.
LET READ.DIGITS() = VALOF
$( LET N = 0
   UNLESS AT.DIGIT() DO RESULTIS NO.NUMBER
   $( N := 10 * N + CH - '0'
      NEXT()
   $) REPEATWHILE AT.DIGIT()
   RESULTIS N
$)

// A reading in tenths, after any blanks; or NO.NUMBER. 48,5 and 48.5 are 485; 51 is 510;
// of 48.57 the 7 is passed over.
LET READ.TENTHS() = VALOF
$( LET WHOLE, TENTH, NEGATIVE = 0, 0, FALSE
   SKIP.BLANKS()
   IF CH = '-' DO
   $( NEGATIVE := TRUE
      NEXT()
   $)
   WHOLE := READ.DIGITS()
   IF WHOLE = NO.NUMBER DO RESULTIS NO.NUMBER
   SWITCHON CH INTO
   $( CASE ',':
      CASE '.':
         NEXT()
         IF AT.DIGIT() DO TENTH := CH - '0'
         WHILE AT.DIGIT() DO NEXT()
   $)
   TEST NEGATIVE THEN RESULTIS -(10 * WHOLE + TENTH) OR RESULTIS 10 * WHOLE + TENTH
$)

// The characters up to END.SIGN or the line's end, as a string in STRING; those beyond
// MOST are passed over. STRING is a vector with room for them and for byte 0: VEC 10 has
// 22 bytes. It is cleared first, for PUTBYTE reads the word that it changes, and a word
// of a vector may not be read before something is stored in it.
LET READ.STRING(STRING, MOST, END.SIGN) BE
$( LET LENGTH = 0
   FOR I = 0 TO MOST / 2 DO STRING!I := 0
   UNTIL CH = END.SIGN | AT.LINE.END() DO
   $( IF LENGTH < MOST DO
      $( LENGTH := LENGTH + 1
         PUTBYTE(STRING, LENGTH, CH)
      $)
      NEXT()
   $)
   PUTBYTE(STRING, 0, LENGTH)
$)

// The program itself

LET IS.OUTSIDE(READING) = (READING < LEAST.ALLOWED | READING > MOST.ALLOWED)

// The run grows by a reading.
LET GROW(READING) BE
$( IF LENGTH = 0 | READING < LOWEST DO LOWEST := READING
   IF LENGTH = 0 | READING > HIGHEST DO HIGHEST := READING
   LENGTH := LENGTH + 1
   OUTSIDE := OUTSIDE + 1
$)

// Ends the run that is going on, if there is one. It began at FIRST.TIME; LONGEST.TIME is
// where the longest began.
LET END.RUN(FIRST.TIME, LONGEST.TIME) BE
$( IF LENGTH = 0 DO RETURN
   EXCURSIONS := EXCURSIONS + 1
   WRITES(FIRST.TIME)
   WRITED(LENGTH, 12)
   WRITE.TENTHS(LOWEST, 10)
   WRITE.TENTHS(HIGHEST, 10)
   NEWLINE()
   IF LENGTH > LONGEST DO           // of two runs of one length the earlier counts
   $( LONGEST := LENGTH
      COPY.STRING(FIRST.TIME, LONGEST.TIME)
   $)
   LENGTH := 0
$)

LET WRITE.COUNT(NAME, COUNT) BE
$( WRITES(NAME)
   WRITED(COUNT, 4)
   NEWLINE()
$)

LET START() BE
$( LET TIME = VEC 8
   LET FIRST.TIME = VEC 8
   LET LONGEST.TIME = VEC 8
   READINGS, OUTSIDE, EXCURSIONS, LENGTH, LONGEST := 0, 0, 0, 0, 0
   WRITES("from                readings    lowest   highest*N")
   NEXT()
   UNTIL CH = END.OF.INPUT DO
   $( LET READING = NO.NUMBER
      READ.STRING(TIME, 16, '*S')
      READING := READ.TENTHS()
      SKIP.LINE()
      IF READING = NO.NUMBER DO LOOP;
      READINGS := READINGS + 1
      IF IS.OUTSIDE(READING) & LENGTH = 0 DO COPY.STRING(TIME, FIRST.TIME)
      TEST IS.OUTSIDE(READING)
      THEN GROW(READING)
      OR END.RUN(FIRST.TIME, LONGEST.TIME)
   $)
   END.RUN(FIRST.TIME, LONGEST.TIME)
   WRITE.COUNT("readings   ", READINGS)
   WRITE.COUNT("outside    ", OUTSIDE)
   WRITE.COUNT("excursions ", EXCURSIONS)
   IF LONGEST > 0 DO
   $( WRITES("longest    ")
      WRITED(LONGEST, 4)
      WRITES(" readings from ")
      WRITES(LONGEST.TIME)
      NEWLINE()
   $)
$)
