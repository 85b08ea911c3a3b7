LET F() = 1; AND G() = 2
