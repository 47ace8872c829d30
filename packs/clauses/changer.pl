empty(tube(_,nil)).

first(tube(Coin, cons(_,_)), Coin).

holds(rack(Tubes), Coin) :-
    member(tube(Coin, cons(_,_)), Tubes).

pays(Rack, V1) :- holds(Rack, coin(_, V1)), open(Rack), ready.
