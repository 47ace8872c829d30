c Problem:    
c Rows:       5
c Columns:    4
c Non-zeros:  12
c Status:     OPTIMAL
c Objective:  total = 1.5 (MINimum)
c
s bas 5 4 f f 1.5
i 1 u -2 -0.25
i 2 b 1 0
i 3 b -1 0
i 4 u -1 -1
i 5 b 0 0
j 1 b 0.5 0
j 2 l 0 1.5
j 3 b 1 0
j 4 l 0 2
e o f
