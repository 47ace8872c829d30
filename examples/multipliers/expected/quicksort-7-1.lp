\ quicksort, rule 7, claim 1 on quicksort/2: m2_1 is the multiplier of claim 1 on subgoal 2.
\ Each row is a number of the residual: what is taken away from the head's number may not be more than that.
minimize
 total: + m1_1 + m2_1 + m3_1 + m4_1
subject to
 constant: +0 m1_1 +0 m2_1 +0 m3_1 +2 m4_1 <= 2
 size_X: +0 m1_1 +0 m2_1 +0 m3_1 +1 m4_1 <= 1
 size_Xs: +1 m1_1 +0 m2_1 +0 m3_1 +0 m4_1 <= 1
 size_Zs: +0 m1_1 +0 m2_1 +0 m3_1 -1 m4_1 <= -1
 size_Ls: -1 m1_1 +1 m2_1 +0 m3_1 +0 m4_1 <= 0
 size_Gs: -1 m1_1 +0 m2_1 +1 m3_1 +0 m4_1 <= 0
 size_Sl: +0 m1_1 -1 m2_1 +0 m3_1 +1 m4_1 <= 0
 size_Sg: +0 m1_1 +0 m2_1 -1 m3_1 +1 m4_1 <= 0
end
