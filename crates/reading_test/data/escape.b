A := "B*Q"
