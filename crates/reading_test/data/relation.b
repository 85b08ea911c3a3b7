LET F() = A >> 5
  = 14
