heavier(coin(X,_), coin(Y,_)) :- X > Y.
