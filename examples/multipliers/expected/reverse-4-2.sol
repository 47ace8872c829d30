c Problem:    
c Rows:       5
c Columns:    4
c Non-zeros:  12
c Status:     OPTIMAL
c Objective:  total = 2 (MINimum)
c
s bas 5 4 f f 2
i 1 u -2 -0.5
i 2 b -1 0
i 3 u -1 -1
i 4 b 1 0
i 5 b 0 0
j 1 l 0 2
j 2 b 1 0
j 3 l 0 2
j 4 b 1 0
e o f
