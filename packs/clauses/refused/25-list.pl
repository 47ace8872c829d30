join([], Y, Y).
join([X|Xs], Y, [X|Zs]) :- join(Xs, Y, Zs).
