// library.b: reading and writing numbers and strings, to copy from.
//
// The college's BCPL has no library but RDCH and WRCH, so a program that writes a number
// or a word brings the routine for it along. These are the routines that the other
// examples use. A routine stands below those that it calls: copy it with them, and with
// the lines of GLOBAL and MANIFEST that it names. START tries them all.
//
//     bcpl examples/library.b < examples/library.in

GLOBAL $( START:1       // the run begins in the routine of this global
          RDCH:13       // RDCH() takes the next character of the input, and gives -1 at its end
          WRCH:14       // WRCH(C) writes a character
          CH:100 $)     // the character that is being looked at: see NEXT

MANIFEST $( END.OF.INPUT = -1
            NO.NUMBER = #100000 $)     // -32768, a number that no logger writes

// Strings

// A string is the address of its words, with two bytes in each, the first in the high half.
// Byte 0 is the length, and the characters follow.
LET GETBYTE(STRING, INDEX) = VALOF
$( LET PAIR = STRING!(INDEX / 2)
   TEST INDEX REM 2 = 0 THEN RESULTIS PAIR >> 8 OR RESULTIS PAIR & 255
$)

LET PUTBYTE(STRING, INDEX, BYTE) BE
$( LET PLACE = STRING + INDEX / 2
   TEST INDEX REM 2 = 0
   THEN !PLACE := (BYTE << 8) | (!PLACE & 255)
   OR !PLACE := (!PLACE & #177400) | (BYTE & 255)
$)

// Are two strings the same? Their lengths are compared first, as byte 0.
LET SAME(STRING, OTHER) = VALOF
$( FOR I = 0 TO GETBYTE(STRING, 0) DO
      UNLESS GETBYTE(STRING, I) = GETBYTE(OTHER, I) DO RESULTIS FALSE
   RESULTIS TRUE
$)

LET COPY.STRING(STRING, COPY) BE
   FOR I = 0 TO GETBYTE(STRING, 0) / 2 DO COPY!I := STRING!I

// Numbers

// The whole number nearest to N / DIVISOR, for a DIVISOR above 0; a half goes away from
// zero. A plain quotient is cut toward zero.
LET ROUNDED(N, DIVISOR) = VALOF
$( LET QUOTIENT, REST = N / DIVISOR, N REM DIVISOR
   TEST N >= 0
   THEN IF REST >= DIVISOR - REST DO QUOTIENT := QUOTIENT + 1
   OR IF -REST >= DIVISOR + REST DO QUOTIENT := QUOTIENT - 1
   RESULTIS QUOTIENT
$)

// Writing

LET NEWLINE() BE WRCH('*N')

LET SPACES(MANY) BE FOR I = 1 TO MANY DO WRCH('*S')

LET WRITES(STRING) BE
   FOR I = 1 TO GETBYTE(STRING, 0) DO WRCH(GETBYTE(STRING, I))

// A number at the right of WIDTH places; one that is too wide is written whole. The
// digits are taken from a negative number, since -32768 has no positive one.
LET WRITED(N, WIDTH) BE
$( LET DIGIT = VEC 4
   LET MANY, REST = 0, -N
   IF N < 0 DO WIDTH, REST := WIDTH - 1, N
   $( DIGIT!MANY := -(REST REM 10)
      MANY, REST := MANY + 1, REST / 10
   $) REPEATUNTIL REST = 0
   SPACES(WIDTH - MANY)
   IF N < 0 DO WRCH('-')
   FOR I = MANY - 1 TO 0 BY -1 DO WRCH(DIGIT!I + '0')
$)

LET WRITEN(N) BE WRITED(N, 0)

// The last digits of a number that is not negative, with leading zeros: 8 as 08.
LET WRITEZ(N, DIGITS) BE
$( IF DIGITS > 1 DO WRITEZ(N / 10, DIGITS - 1)
   WRCH(N REM 10 + '0')
$)

// All bits of a word in octal: the manual's WRITEOCT. The brackets are needed, since &
// binds less tightly than +.
LET WRITEOCT(N, DIGITS) BE
$( IF DIGITS > 1 DO WRITEOCT(N >> 3, DIGITS - 1)
   WRCH((N & 7) + '0')
$)

// Tenths with a decimal point at the right of WIDTH places: 485 as 48.5, and -5 as -0.5.
LET WRITE.TENTHS(N, WIDTH) BE
$( LET WHOLE, TENTH = N / 10, N REM 10       // toward zero: -5 / 10 is 0, and -5 REM 10 is -5
   IF TENTH < 0 DO TENTH := -TENTH
   TEST N < 0 & WHOLE = 0
   THEN $( SPACES(WIDTH - 4); WRITES("-0") $)
   OR WRITED(WHOLE, WIDTH - 2)
   WRCH('.')
   WRCH(TENTH + '0')
$)

// Reading

// CH is the next character that has not been used yet, and NEXT goes on to the one after
// it: call it once at the start. The carriage returns that some loggers write at every
// line's end are left out.
LET NEXT() BE
   CH := RDCH() REPEATWHILE CH = '*C'

LET AT.DIGIT() = ('0' <= CH & CH <= '9')

LET AT.LINE.END() = (CH = '*N' | CH = END.OF.INPUT)

LET SKIP.BLANKS() BE
   WHILE CH = '*S' | CH = '*T' DO NEXT()

// To the first character of the next line.
LET SKIP.LINE() BE
$( UNTIL AT.LINE.END() DO NEXT()
   IF CH = '*N' DO NEXT()
$)

// A number of digits only, or NO.NUMBER. One past 32767 is not noticed: see overflow.b.
LET READ.DIGITS() = VALOF
$( LET N = 0
   UNLESS AT.DIGIT() DO RESULTIS NO.NUMBER
   $( N := 10 * N + CH - '0'
      NEXT()
   $) REPEATWHILE AT.DIGIT()
   RESULTIS N
$)

// A number, with a sign or without one, after any blanks; or NO.NUMBER.
LET READN() = VALOF
$( LET N, NEGATIVE = 0, FALSE
   SKIP.BLANKS()
   SWITCHON CH INTO
   $( CASE '-': NEGATIVE := TRUE       // and on: a case falls through to the next
      CASE '+': NEXT()
   $)
   N := READ.DIGITS()
   IF NEGATIVE DO N := -N         // NO.NUMBER stays what it is: -32768 negated is -32768
   RESULTIS N
$)

// A reading in tenths, after any blanks; or NO.NUMBER. 48,5 and 48.5 are 485; 51 is 510;
// of 48.57 the 7 is passed over.
LET READ.TENTHS() = VALOF
$( LET WHOLE, TENTH, NEGATIVE = 0, 0, FALSE
   SKIP.BLANKS()
   IF CH = '-' DO
   $( NEGATIVE := TRUE
      NEXT()
   $)
   WHOLE := READ.DIGITS()
   IF WHOLE = NO.NUMBER DO RESULTIS NO.NUMBER
   SWITCHON CH INTO
   $( CASE ',':
      CASE '.':
         NEXT()
         IF AT.DIGIT() DO TENTH := CH - '0'
         WHILE AT.DIGIT() DO NEXT()
   $)
   TEST NEGATIVE THEN RESULTIS -(10 * WHOLE + TENTH) OR RESULTIS 10 * WHOLE + TENTH
$)

// The characters up to END.SIGN or the line's end, as a string in STRING; those beyond
// MOST are passed over. STRING is a vector with room for them and for byte 0: VEC 10 has
// 22 bytes. It is cleared first, for PUTBYTE reads the word that it changes, and a word
// of a vector may not be read before something is stored in it.
LET READ.STRING(STRING, MOST, END.SIGN) BE
$( LET LENGTH = 0
   FOR I = 0 TO MOST / 2 DO STRING!I := 0
   UNTIL CH = END.SIGN | AT.LINE.END() DO
   $( IF LENGTH < MOST DO
      $( LENGTH := LENGTH + 1
         PUTBYTE(STRING, LENGTH, CH)
      $)
      NEXT()
   $)
   PUTBYTE(STRING, 0, LENGTH)
$)

// Every line of the input is a word, which says how the rest of the line is to be read,
// and that rest.

LET TRY.NUMBER() BE
$( LET N = READN()
   TEST N = NO.NUMBER
   THEN WRITES("no number")
   OR $( WRITES("number ")
         WRITEN(N)
         WRITES(" wide [")
         WRITED(N, 8)
         WRITES("] octal ")
         WRITEOCT(N, 6)
         WRITES(" tens ")
         WRITEN(ROUNDED(N, 10))
         IF N >= 0 DO
         $( WRITES(" zeros ")
            WRITEZ(N, 5)
         $)
      $)
   NEWLINE()
$)

LET TRY.TENTHS() BE
$( LET TENTHS = READ.TENTHS()
   TEST TENTHS = NO.NUMBER
   THEN WRITES("no reading")
   OR $( WRITEN(TENTHS)
         WRITES(" tenths are [")
         WRITE.TENTHS(TENTHS, 8)
         WRITES("]")
      $)
   NEWLINE()
$)

LET TRY.STRING() BE
$( LET LINE = VEC 15
   LET COPY = VEC 15
   SKIP.BLANKS()
   READ.STRING(LINE, 30, '*N')
   COPY.STRING(LINE, COPY)
   WRITES("string *"")
   WRITES(COPY)
   WRITES("*" of length ")
   WRITEN(GETBYTE(COPY, 0))
   NEWLINE()
$)

LET START() BE
$( LET WORD = VEC 5
   NEXT()
   UNTIL CH = END.OF.INPUT DO
   $( READ.STRING(WORD, 10, '*S')
      TEST SAME(WORD, "number") THEN TRY.NUMBER()
      OR TEST SAME(WORD, "reading") THEN TRY.TENTHS()
      OR TEST SAME(WORD, "string") THEN TRY.STRING()
      OR $( WRITES("not known: "); WRITES(WORD); NEWLINE() $)
      SKIP.LINE()
   $)
$)
