#!/usr/bin/env escript
%% Writes the examples of runs. Each expression of expressions.txt is run by the Erlang that runs
%% this script, in a compiled module; written are its tree, the outcome that it had, the statement
%% that the definitions of runs give that outcome, and the proof, which computes.
%%
%% Run it in the folder of this crate, and `rt fmt` and `rt tidy` behind it.
%%
%% expressions.txt holds groups. A group begins with a line `== NAME: WORDS`. Lines that follow it
%% and end with a dot are the records and functions of its module; each other line that isn't blank
%% and no comment (`%`) is an expression. Where the definitions say something else than Erlang on
%% purpose, ` ~> OUTCOME` stands behind the expression: `wrong`, a value, or a class and a value with
%% ` : ` between them.
%%
%% KindsOfWrong, ConstructsThatReturn and CallsAndSteps are written by hand. The first two cite examples
%% by their numbers, so a new expression stands at the end of its group.

-mode(compile).

main([]) ->
    {ok, Text} = file:read_file("expressions.txt"),
    Groups = groups(string:split(unicode:characters_to_list(Text), "\n", all), []),
    Total = lists:sum([write_group(G) || G <- Groups]),
    write_library(Groups),
    io:format("~b expressions in ~b groups~n", [Total, length(Groups)]).

%% ---- the list of expressions

groups([], Groups) ->
    lists:reverse([{Name, Words, lists:reverse(Forms), lists:reverse(Es)} || {Name, Words, Forms, Es} <- Groups]);
groups(["== " ++ Head | Lines], Groups) ->
    [Name, Words] = string:split(Head, ": "),
    groups(Lines, [{Name, Words, [], []} | Groups]);
groups(["%" ++ _ | Lines], Groups) ->
    groups(Lines, Groups);
groups([Line | Lines], Groups) ->
    case {string:trim(Line), Groups} of
        {"", _} -> groups(Lines, Groups);
        {L, [{Name, Words, Forms, Es} | More]} ->
            case lists:last(L) of
                $. -> groups(Lines, [{Name, Words, [L | Forms], Es} | More]);
                _ -> groups(Lines, [{Name, Words, Forms, [L | Es]} | More])
            end
    end.

%% An expression and the outcome that is intended where it isn't Erlang's.
parted(Line) ->
    case string:split(Line, " ~> ") of
        [E, Intended] -> {E, Intended};
        [E] -> {E, none}
    end.

%% ---- running

%% What Erlang gives for an expression in a module of these forms.
run(Forms, Expr) ->
    {Records, Functions} = lists:partition(fun(F) -> hd(F) =:= $- end, Forms),
    Texts = ["-module(m).", "-export([main/0])."] ++ Records ++ ["main() -> " ++ Expr ++ "."] ++ Functions,
    Parsed = [parsed(T, erl_parse:parse_form(scan(T))) || T <- Texts],
    case compile:forms(Parsed, [return, nowarn_unused_vars]) of
        {ok, m, Binary, _} ->
            code:purge(m),
            {module, m} = code:load_binary(m, "m.erl", Binary),
            try {came, m:main()} catch Class:Reason -> {raised, Class, Reason} end;
        {error, Errors, _} -> refused(Expr, Errors)
    end.

parsed(_, {ok, Form}) -> Form;
parsed(Text, {error, Error}) -> refused(Text, Error).

refused(Text, Error) ->
    io:format("~ts~n  ~p~n", [Text, Error]),
    halt(1).

scan(Text) ->
    {ok, Tokens, _} = erl_scan:string(Text, {1, 1}),
    Tokens.

%% ---- trees

%% erl_parse forgets parentheses; inside a group of them stands a call of `'$paren'` before. The last
%% argument tells of each open parenthesis whether it is a group's.
with_parens([], _, _) -> [];
with_parens([{'(', L} = T | Ts], Before, Open) ->
    case is_group(Before, Ts) of
        true -> [T, {atom, L, '$paren'}, T | with_parens(Ts, '(', [true | Open])];
        false -> [T | with_parens(Ts, '(', [false | Open])]
    end;
with_parens([{')', _} = T | Ts], _, [true | Open]) -> [T, T | with_parens(Ts, ')', Open)];
with_parens([{')', _} = T | Ts], _, [false | Open]) -> [T | with_parens(Ts, ')', Open)];
with_parens([T | Ts], _, Open) -> [T | with_parens(Ts, element(1, T), Open)].

is_group(Before, Ts) ->
    case lists:member(Before, [atom, var, ')', '}', ']', 'end', 'fun', string, char, integer]) of
        true -> false;
        false when Before =:= ';' -> not is_head(Ts, 1);
        false -> true
    end.

%% Whether what closes a parenthesis is followed by `->` or `when`: the head of a fun's clause.
is_head([{'(', _} | Ts], N) -> is_head(Ts, N + 1);
is_head([{')', _}, {Next, _} | _], 1) -> Next =:= '->' orelse Next =:= 'when';
is_head([{')', _} | Ts], N) -> is_head(Ts, N - 1);
is_head([_ | Ts], N) -> is_head(Ts, N);
is_head([], _) -> false.

parse_expr(Text) ->
    [E] = parsed(Text, erl_parse:parse_exprs(with_parens(scan(Text ++ "."), none, []))),
    E.

parse_form(Text) ->
    parsed(Text, erl_parse:parse_form(with_parens(scan(Text), none, []))).

expr({integer, _, N}) -> ["T.int ", number(N)];
expr({atom, _, A}) -> ["T.atom ", name(A)];
expr({char, _, C}) -> ["T.char ", number(C)];
expr({string, _, S}) -> ["T.text ", text(S)];
expr({var, _, X}) -> ["T.var ", name(X)];
expr({call, _, {atom, _, '$paren'}, [E]}) -> ["T.paren ", in(expr(E))];
expr({tuple, _, Es}) -> ["T.tuple ", list(fun expr/1, Es)];
expr({nil, _}) -> "T.list []";
expr({cons, _, _, _} = E) -> cells("T", fun expr/1, E, []);
expr({lc, _, E, Qs}) -> ["T.comprehension ", in(expr(E)), " ", list(fun qualifier/1, Qs)];
expr({op, _, Op, E}) -> ["T.unary U.", sign(Op), " ", in(expr(E))];
expr({op, _, Op, A, B}) -> ["T.binary B.", operator(Op), " ", in(expr(A)), " ", in(expr(B))];
expr({call, _, {atom, _, F}, Es}) -> ["T.call ", name(F), " ", list(fun expr/1, Es)];
expr({call, _, {remote, _, {atom, _, erlang}, {atom, _, F}}, Es}) -> ["T.erlang_call ", name(F), " ", list(fun expr/1, Es)];
expr({call, _, F, Es}) -> ["T.apply ", in(expr(F)), " ", list(fun expr/1, Es)];
expr({map, _, As}) -> ["T.map_new ", list(fun association/1, As)];
expr({map, _, E, As}) -> ["T.map_change ", in(expr(E)), " ", list(fun association/1, As)];
expr({record, _, R, Fs}) -> ["T.rec_new ", name(R), " ", list(fun(F) -> field("T", fun expr/1, F) end, Fs)];
expr({record, _, E, R, Fs}) -> ["T.rec_change ", in(expr(E)), " ", name(R), " ", list(fun(F) -> field("T", fun expr/1, F) end, Fs)];
expr({record_field, _, E, R, {atom, _, F}}) -> ["T.rec_get ", in(expr(E)), " ", name(R), " ", name(F)];
expr({block, _, Es}) -> ["T.begin_of ", body(Es)];
expr({'case', _, E, Cs}) -> ["T.case_of ", in(expr(E)), " ", list(fun clause/1, Cs)];
expr({'if', _, Cs}) -> ["T.if_of ", list(fun clause/1, Cs)];
expr({'fun', _, {function, F, A}}) -> ["T.fun_name ", name(F), " ", number(A)];
expr({'fun', _, {clauses, Cs}}) -> ["T.fun_of ", list(fun clause/1, Cs)];
expr({'try', _, Es, Cs, Ds, []}) -> ["T.try_of ", body(Es), " ", list(fun clause/1, Cs), " ", list(fun caught/1, Ds)];
expr({'try', _, Es, Cs, Ds, As}) -> ["T.try_after ", body(Es), " ", list(fun clause/1, Cs), " ", list(fun caught/1, Ds), " ", body(As)].

cells(Module, Part, {cons, _, Head, Tail}, Before) -> cells(Module, Part, Tail, [Head | Before]);
cells(Module, Part, {nil, _}, Before) -> [Module, ".list ", list(Part, lists:reverse(Before))];
cells(Module, Part, Tail, Before) -> [Module, ".list_onto ", list(Part, lists:reverse(Before)), " ", in(Part(Tail))].

field(Module, Part, {record_field, _, {atom, _, F}, E}) -> [Module, ".field ", name(F), " ", in(Part(E))].

association({map_field_assoc, _, K, V}) -> ["T.sets ", in(expr(K)), " ", in(expr(V))];
association({map_field_exact, _, K, V}) -> ["T.replaces ", in(expr(K)), " ", in(expr(V))].

qualifier({generate, _, P, E}) -> ["T.generator ", in(pattern(P)), " ", in(expr(E))];
qualifier(E) -> ["T.filter ", in(expr(E))].

body(Es) -> list(fun item/1, Es).

%% `P = Q = E` is a match of the pattern `P = Q`.
item({match, L, P, {match, _, Q, E}}) -> item({match, L, {match, L, P, Q}, E});
item({match, _, P, E}) -> ["T.match ", in(pattern(P)), " ", in(expr(E))];
item(E) -> ["T.value ", in(expr(E))].

clause({clause, _, Ps, [], Es}) -> ["T.clause ", list(fun pattern/1, Ps), " ", body(Es)];
clause({clause, _, Ps, Guard, Es}) -> ["T.clause_when ", list(fun pattern/1, Ps), " ", list(fun(Ts) -> list(fun expr/1, Ts) end, Guard), " ", body(Es)].

%% A clause without a class has the class `throw` at the place of its pattern.
caught({clause, L, [{tuple, _, [Class, P, {var, _, '_'}]}], Guard, Es}) ->
    Inner = in(clause({clause, L, [P], Guard, Es})),
    case element(2, Class) =:= element(2, P) of
        true -> ["T.caught ", Inner];
        false -> ["T.caught_as ", in(pattern(Class)), " ", Inner]
    end.

pattern({integer, _, N}) -> ["P.int ", number(N)];
pattern({op, _, '-', {integer, _, N}}) -> ["P.minus ", number(N)];
pattern({atom, _, A}) -> ["P.atom ", name(A)];
pattern({char, _, C}) -> ["P.char ", number(C)];
pattern({string, _, S}) -> ["P.text ", text(S)];
pattern({var, _, X}) -> ["P.var ", name(X)];
pattern({call, _, {atom, _, '$paren'}, [P]}) -> ["P.paren ", in(pattern(P))];
pattern({tuple, _, Ps}) -> ["P.tuple ", list(fun pattern/1, Ps)];
pattern({nil, _}) -> "P.list []";
pattern({cons, _, _, _} = P) -> cells("P", fun pattern/1, P, []);
pattern({map, _, Es}) -> ["P.map ", list(fun entry/1, Es)];
pattern({record, _, R, Fs}) -> ["P.rec ", name(R), " ", list(fun(F) -> field("P", fun pattern/1, F) end, Fs)];
pattern({match, _, P, Q}) -> ["P.alias ", in(pattern(P)), " ", in(pattern(Q))].

entry({map_field_exact, _, {integer, _, N}, P}) -> ["P.at_int ", number(N), " ", in(pattern(P))];
entry({map_field_exact, _, {op, _, '-', {integer, _, N}}, P}) -> ["P.at_minus ", number(N), " ", in(pattern(P))];
entry({map_field_exact, _, {atom, _, A}, P}) -> ["P.at_atom ", name(A), " ", in(pattern(P))];
entry({map_field_exact, _, {char, _, C}, P}) -> ["P.at_char ", number(C), " ", in(pattern(P))].

form({attribute, _, record, {R, Fs}}) -> {record, ["T.record_of ", name(R), " ", list(fun declared/1, Fs)]};
form({function, _, F, _, Cs}) -> {function, ["T.function ", name(F), " ", list(fun clause/1, Cs)]}.

declared({record_field, _, {atom, _, F}}) -> ["T.declared ", name(F)];
declared({record_field, _, {atom, _, F}, E}) -> ["T.declared_with ", name(F), " ", in(expr(E))].

sign('+') -> "Plus";
sign('-') -> "Minus";
sign('not') -> "Not".

operator(Op) ->
    maps:get(Op, #{
        '+' => "Add", '-' => "Sub", '*' => "Mul", 'div' => "Div", 'rem' => "Rem", '==' => "Eq", '/=' => "Ne",
        '=:=' => "ExactEq", '=/=' => "ExactNe", '<' => "Lt", '>' => "Gt", '=<' => "Le", '>=' => "Ge",
        'and' => "And", 'or' => "Or", 'xor' => "Xor", 'andalso' => "Andalso", 'orelse' => "Orelse",
        '++' => "Append"
    }).

%% ---- outcomes

outcome({came, V}) -> ["came ", in(value(V))];
outcome({raised, Class, V}) -> ["raised ", atom_to_list(Class), " ", in(value(V))];
outcome(wrong) -> "wrong".

value(N) when is_integer(N), N < 0 -> ["V.minus ", number(-N)];
value(N) when is_integer(N) -> ["V.int ", number(N)];
value(A) when is_atom(A) -> ["V.atom ", name(A)];
value([]) -> "V.list []";
value([_ | _] = L) -> value_cells(L, []);
value(T) when is_tuple(T) -> ["V.tuple ", list(fun value/1, tuple_to_list(T))];
value(M) when is_map(M) -> ["V.map_with ", list(fun value_entry/1, maps:to_list(M))].

value_cells([V | Vs], Before) -> value_cells(Vs, [V | Before]);
value_cells([], Before) -> ["V.list ", list(fun value/1, lists:reverse(Before))];
value_cells(Tail, Before) -> ["V.list_onto ", list(fun value/1, lists:reverse(Before)), " ", in(value(Tail))].

value_entry({K, V}) when is_integer(K), K < 0 -> ["V.at_minus ", number(-K), " ", in(value(V))];
value_entry({K, V}) when is_integer(K) -> ["V.at_int ", number(K), " ", in(value(V))];
value_entry({K, V}) when is_atom(K) -> ["V.at_atom ", name(K), " ", in(value(V))].

%% ---- pieces of terms

in(Term) ->
    case string:find(Term, " ") of
        nomatch -> Term;
        _ -> ["(", Term, ")"]
    end.

list(_, []) -> "[]";
list(Part, Xs) -> ["(", [[element_of(Part(X)), " ∷ "] || X <- Xs], "[])"].

%% An element of a list is an application, which needs no parentheses, or a list, which has its own.
element_of(Term) -> Term.

number(N) -> integer_to_list(N).

name(A) -> text(atom_to_list(A)).

text("") -> "[]";
text(S) ->
    case lists:all(fun(C) -> C >= $\s andalso C =< $~ andalso C =/= $" andalso C =/= $\\ end, S) of
        true -> ["(codes \"", S, "\")"];
        false -> list(fun number/1, binary_to_list(unicode:characters_to_binary(S)))
    end.

%% ---- files

write_group({Name, Words, Forms, Lines}) ->
    Parsed = [form(parse_form(F)) || F <- Forms],
    Records = ["(", [[R, " ∷ "] || {record, R} <- Parsed], "[])"],
    Functions = ["(", [[F, " ∷ "] || {function, F} <- Parsed], "[])"],
    Module = module_name(Name),
    Numbered = lists:zip(lists:seq(1, length(Lines)), Lines),
    Examples = [example(Name, Forms, I, parted(L)) || {I, L} <- Numbered],
    Names = [example_name(Name, I) || {I, _} <- Numbered],
    Specs = [
        "-- Examples of runs: ", Words, ". Written by expressions.escript.\n",
        uses(),
        [["\n-- ", F] || F <- Forms], case Forms of [] -> ""; _ -> "\n" end,
        "\nabbrev pub records : List RecDefKind\nrecords = ", unwrapped(Records),
        "\n\nabbrev pub functions : List Function\nfunctions = ", unwrapped(Functions), "\n",
        Examples,
        "\n-- all of them\nabbrev pub ", Module, " : Type 0\n", Module, " = ", lists:join(" × ", Names), "\n"],
    write(["specs/", Module, ".antt"], Specs),
    write(["proofs/", Module, "Runs.antt"], [
        "-- Proofs of examples, by computing. Written by expressions.escript.\n",
        "use Rattle.std.proofs.Common.{refl}\n",
        "use Rattle.run_examples.specs.", Module, ".{", Module, ", ", lists:join(", ", Names), "}\n",
        "use Rattle.run_examples.proofs.Levels.{computed, outcome_in_levels}\n",
        [["\npub ", N, "-runs : ", N, "\nunfolding outcome_in_levels\n", N, "-runs = computed _ _ _ _ refl\n"] || N <- Names],
        "\npub ", Name, "-run : ", Module, "\n", Name, "-run = (", lists:join(", ", [[N, "-runs"] || N <- Names]), ")\n"]),
    write(["proofs/examples/", Name, "/Answers.antt"], [
        "use Rattle.run_examples.proofs.", Module, "Runs.{", Name, "-run}\n",
        "use Rattle.run_examples.proofs.examples.", Name, ".Goals as goal\n\n",
        "pub returns : goal.returns\nreturns c = ", Name, "-run\n"]),
    length(Lines).

uses() ->
    "use Rattle.std.specs.Prelude.{◌≡◌, List, [], ◌∷◌, codes}\n"
    "use Rattle.erl_tree.specs.declared.form.Function.{Function}\n"
    "use Rattle.erl_tree.specs.declared.form.RecDefKind.{RecDefKind}\n"
    "use Rattle.erl_tree.specs.declared.expr.UnaryOp.TheVariants as U\n"
    "use Rattle.erl_tree.specs.declared.expr.BinaryOp.TheVariants as B\n"
    "use Rattle.erl_runs.specs.Value.{came, raised, wrong, error, exit, throw}\n"
    "use Rattle.run_examples.specs.Trees as T\n"
    "use Rattle.run_examples.specs.Patterns as P\n"
    "use Rattle.run_examples.specs.Outcomes as V\n"
    "use Rattle.run_examples.specs.Outcomes.{outcome_of}\n".

unwrapped(Term) ->
    Flat = unicode:characters_to_list(Term),
    lists:sublist(Flat, 2, length(Flat) - 2).

example(Name, Forms, I, {Text, Intended}) ->
    Erlang = run(Forms, Text),
    {Outcome, Note} = intended(Erlang, Intended),
    Example = example_name(Name, I),
    ["\n-- ", Text, Note, "\nabbrev pub ", Example, " : Type 0\n", Example, " = outcome_of records functions ",
     in(expr(parse_expr(Text))), " ≡ ", outcome(Outcome), "\n"].

%% The outcome that is stated, and what Erlang gives where that is another one.
intended(Erlang, none) -> {Erlang, ""};
intended(Erlang, Text) ->
    Note = case Erlang of
        {came, V} -> io_lib:format(" (Erlang gives ~tw)", [V]);
        {raised, Class, V} -> io_lib:format(" (Erlang raises ~tw:~tw)", [Class, V])
    end,
    {intended_outcome(string:split(Text, " : ")), Note}.

intended_outcome(["wrong"]) -> wrong;
intended_outcome([Value]) -> {came, term(Value)};
intended_outcome([Class, Value]) -> {raised, list_to_existing_atom(Class), term(Value)}.

term(Text) -> parsed(Text, erl_parse:parse_term(scan(Text ++ "."))).

example_name(Name, I) -> [Name, "_", integer_to_list(I)].

module_name(Name) -> lists:append([string:titlecase(W) || W <- string:split(Name, "_", all)]).

write_library(Groups) ->
    Modules = [module_name(N) || {N, _, _, _} <- Groups],
    write("specs/Lib.antt", ["pub mod Trees\npub mod Patterns\npub mod Outcomes\n", [["pub mod ", M, "\n"] || M <- Modules], "pub mod KindsOfWrong\npub mod ConstructsThatReturn\npub mod CallsAndSteps\n"]),
    write("proofs/Lib.antt", ["mod Levels\n", [["mod ", M, "Runs\n"] || M <- Modules], "mod KindsOfWrongRuns\nmod ConstructsThatReturnRuns\nmod CallsAndStepsRuns\n"]),
    write("src/examples.rt", [
        "//! Examples of runs, by groups. Written by expressions.escript.\n\n",
        [["ghost use Rattle.run_examples.specs.", M, ".{", M, "};\n"] || M <- Modules],
        [["\n/// ", string:titlecase(W), ".\npub fn ", N, "()\n    ensures { ", module_name(N), " }\n{}\n"] || {N, W, _, _} <- Groups]]).

write(Path, Text) ->
    ok = filelib:ensure_dir(Path),
    ok = file:write_file(Path, unicode:characters_to_binary(Text)).
