fringe(leaf(X), Acc, cons(X,Acc)).
fringe(node(L,R), Acc, Out) :-
    fringe(R, Acc, Mid),
    fringe(L, Mid, Out).
