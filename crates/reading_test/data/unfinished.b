LET F() BE
  A
