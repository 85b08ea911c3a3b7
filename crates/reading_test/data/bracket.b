LET F() = (1
