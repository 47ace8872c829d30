next(up(up(up(up(tray)))), slot, up(up(up(tray)))).
next(up(up(up(tray))), rim, up(up(tray))).
next(up(up(up(tray))), rim, up(tray)).
next(up(up(tray)), scale, up(tray)).
next(up(tray), gate, tray).

trail(tray, nil).
trail(Place, cons(Sensor,Rest)) :-
    next(Place, Sensor, Below),
    trail(Below, Rest).
