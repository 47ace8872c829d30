c Problem:    
c Rows:       5
c Columns:    4
c Non-zeros:  12
c Status:     OPTIMAL
c Objective:  total = 2 (MINimum)
c
s bas 5 4 f f 2
i 1 b 2 0
i 2 u -1 -2
i 3 b 1 0
i 4 b 1 0
i 5 u 0 -1
j 1 l 0 3
j 2 b 1 0
j 3 l 0 2
j 4 b 1 0
e o f
