\ reverse, rule 4, claim 1 on reverse/2: m2_1 is the multiplier of claim 1 on subgoal 2.
\ Each row is a number of the residual: what is taken away from the head's number may not be more than that.
minimize
 total: + m1_1 + m1_2 + m2_1 + m2_2
subject to
 constant: +0 m1_1 +0 m1_2 +2 m2_1 -2 m2_2 <= 2
 size_X: +0 m1_1 +0 m1_2 +1 m2_1 -1 m2_2 <= 1
 size_Xs: +1 m1_1 -1 m1_2 +0 m2_1 +0 m2_2 <= 1
 size_Zs: +0 m1_1 +0 m1_2 -1 m2_1 +1 m2_2 <= -1
 size_Ys: -1 m1_1 +1 m1_2 +1 m2_1 -1 m2_2 <= 0
end
