c Problem:    
c Rows:       8
c Columns:    4
c Non-zeros:  12
c Status:     OPTIMAL
c Objective:  total = 4 (MINimum)
c
s bas 8 4 f f 4
i 1 b 2 0
i 2 b 1 0
i 3 b 1 0
i 4 u -1 -4
i 5 u 0 -1
i 6 b 0 0
i 7 u 0 -2
i 8 u 0 -1
j 1 b 1 0
j 2 b 1 0
j 3 b 1 0
j 4 b 1 0
e o f
