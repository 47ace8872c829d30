trail(tray, nil).
% a coin's readings, from where it is to the tray
trail(Place, cons(Sensor,Rest)) :- next(Place, Sensor, Below), trail(Below, Rest).
