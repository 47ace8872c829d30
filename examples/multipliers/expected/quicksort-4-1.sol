c Problem:    
c Rows:       6
c Columns:    1
c Non-zeros:  3
c Status:     OPTIMAL
c Objective:  total = 1 (MINimum)
c
s bas 6 1 f f 1
i 1 b 0 0
i 2 b 0 0
i 3 b 0 0
i 4 b 1 0
i 5 u -1 -1
i 6 b -1 0
j 1 b 1 0
e o f
