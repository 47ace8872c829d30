rack(A,B,C,D,E,F,G,H,coin_of_two_hundred(I)) :- row(tubes(A,B,C,D,E,F,G,H,I,_), _).
