c Problem:    
c Rows:       5
c Columns:    2
c Non-zeros:  8
c Status:     OPTIMAL
c Objective:  total = 1 (MINimum)
c
s bas 5 2 f f 1
i 1 u -4 -0.25
i 2 b -2 0
i 3 b 0 0
i 4 b 2 0
i 5 b -2 0
j 1 b 1 0
j 2 l 0 1.5
e o f
