LET F() BE A := 1
AND G() BE A, !B, C!D := B, A + 1, F()
AND H() BE F() := -1
