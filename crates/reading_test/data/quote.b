A := 'B
