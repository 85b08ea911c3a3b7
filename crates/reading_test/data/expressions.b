LET F(A, B) = A * -B REM 3 / 4 + NOT A ! 1 = B << 2 - 1 & @A!B!(A) | +!A > "X"
LET G() = A(1)(B, TRUE)!2!F() - F()!FALSE
LET H() = VALOF RESULTIS VALOF $( $) (3) >> 1
