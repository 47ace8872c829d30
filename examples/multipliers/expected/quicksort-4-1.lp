\ quicksort, rule 4, claim 1 on partition/4: m2_1 is the multiplier of claim 1 on subgoal 2.
\ Each row is a number of the residual: what is taken away from the head's number may not be more than that.
minimize
 total: + m2_1
subject to
 constant: +0 m2_1 <= 0
 size_X: +0 m2_1 <= 0
 size_Y: +0 m2_1 <= 0
 size_Ys: +1 m2_1 <= 1
 size_Ls: -1 m2_1 <= -1
 size_Gs: -1 m2_1 <= -1
end
