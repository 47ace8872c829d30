belt(up(up(up(chute))), north, up(chute)).
belt(up(up(up(chute))), south, up(up(chute))).
belt(up(up(chute)), cross, up(chute)).
belt(up(chute), last, chute).

path(From, To) :- path(From, To, _).

path(From, To, cons(Belt,nil)) :- belt(From, Belt, To).
path(From, To, cons(Belt,Rest)) :-
    belt(From, Belt, Next),
    path(Next, To, Rest).
