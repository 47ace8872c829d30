% Reads each file that it is given with SWI-Prolog's own reader and prints a line for it: its clauses as JSON (README.md says
% in what form), or `refused` with the reader's message. tests/prolog/make runs it.
:- initialization(main, main).

main(Files) :-
    forall(member(File, Files), print_file(File)).

print_file(File) :-
    catch(( clauses_of(File, Clauses),
            atomic_list_concat(Clauses, ', ', Inside),
            format("[~w]~n", [Inside]) ),
          error(Error, _),
          format("refused ~q~n", [Error])).

clauses_of(File, Clauses) :-
    setup_call_cleanup(open(File, read, Stream), read_clauses(Stream, Clauses), close(Stream)).

read_clauses(Stream, Clauses) :-
    read_term(Stream, Term, [variable_names(Names), syntax_errors(error)]),
    (   Term == end_of_file
    ->  Clauses = []
    ;   Clauses = [Clause|Rest],
        clause_text(Term, Names, Clause),
        read_clauses(Stream, Rest)
    ).

% The head and the subgoals of a clause, each a tree.
clause_text(Term, Names, Text) :-
    term_variables(Term, Variables),
    exclude(named(Names), Variables, Unnamed),
    (   nonvar(Term), Term = (Head :- Body)
    ->  subgoals(Body, Subgoals)
    ;   Head = Term, Subgoals = []
    ),
    maplist(tree_text(Names, Unnamed), [Head|Subgoals], Trees),
    atomic_list_concat(Trees, ', ', Inside),
    format(atom(Text), '[~w]', [Inside]).

subgoals(Body, [First|Rest]) :-
    nonvar(Body), Body = (First, Others), !,
    subgoals(Others, Rest).
subgoals(Last, [Last]).

named(Names, Variable) :-
    member(_ = Other, Names), Other == Variable, !.

% A variable is its name, or the number that it has among those without a name; a symbol is a list, its name first.
tree_text(Names, _, Term, Text) :-
    var(Term), member(Name = Other, Names), Other == Term, !,
    format(atom(Text), '"~w"', [Name]).
tree_text(_, Unnamed, Term, Text) :-
    var(Term), !,
    nth1(Number, Unnamed, Other), Other == Term, !,
    format(atom(Text), '~w', [Number]).
tree_text(Names, Unnamed, Term, Text) :-
    callable(Term),
    (   atom(Term) -> Name = Term, Arguments = [] ; compound_name_arguments(Term, Name, Arguments) ),
    maplist(tree_text(Names, Unnamed), Arguments, Trees),
    format(atom(Quoted), '"~w"', [Name]),
    atomic_list_concat([Quoted|Trees], ', ', Inside),
    format(atom(Text), '[~w]', [Inside]).
