LET A() BE $( B(1 $)
