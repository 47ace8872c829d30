reverse(List, Turned) :- reverse(List, nil, Turned).

reverse(nil, Done, Done).
reverse(cons(First,Rest), Done, Turned) :-
    reverse(Rest, cons(First,Done), Turned).
