\ select, rule 2, claim 1 on select/3: m2_1 is the multiplier of claim 1 on subgoal 2.
\ Each row is a number of the residual: what is taken away from the head's number may not be more than that.
minimize
 total: + m1_1 + m1_2
subject to
 constant: -4 m1_1 +2 m1_2 <= -4
 size_X: -2 m1_1 +1 m1_2 <= -2
 size_Y: +0 m1_1 +0 m1_2 <= 0
 size_Ys: +2 m1_1 -1 m1_2 <= 2
 size_Zs: -2 m1_1 +1 m1_2 <= -2
end
