c Problem:    
c Rows:       5
c Columns:    2
c Non-zeros:  8
c Status:     OPTIMAL
c Objective:  total = 1 (MINimum)
c
s bas 5 2 f f 1
i 1 b 2 0
i 2 b 1 0
i 3 b 0 0
i 4 u -1 -1
i 5 b 1 0
j 1 l 0 3
j 2 b 1 0
e o f
