ready(changer).
check(Rack) :-
    power(Rack), door(Rack), lock(Rack),
    slot(Rack), scale(Rack), rim(Rack),
    gate(Rack), tray(Rack), printer(Rack).
