join(nil, Y, Y).
join(cons(X,Xs), Y, cons(X,Zs)) :-
    join(Xs, Y, Zs
