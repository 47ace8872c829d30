c Problem:    
c Rows:       4
c Columns:    1
c Non-zeros:  2
c Status:     INFEASIBLE (FINAL)
c Objective:  total = 1 (MINimum)
c
s bas 4 1 n i 1
i 1 b 0 0
i 2 b 0 0
i 3 u 1 1
i 4 b -1 0
j 1 b 1 0
e o f
