// The programs of examples/wrong/habits: each with the hints that are told of its text, and with what comes of them.
// `done` are programs done as told, by replacements in the text, each with the hints that it follows by their places;
// they give what the program's comment wants, or another query and value. Where no hint is told, a mended one stands.
const IN = "mem(_,[],R) :- true | R = no.\n";
const NO_EQUALITY = "other terms have no test of equality: write a clause for each value, as";
const NO_OUTPUT = "there is no output: give the process a list, and look at it by `show`";
const UNEQUAL = "for \"not equal\" write a clause for each case";
const VALUES = [ // of `mem`, in the place of its clauses for any value
  "mem(a,[a|_],R) :- true | R = yes.", "mem(b,[b|_],R) :- true | R = yes.",
  "mem(a,[b|L],R) :- true | mem(a,L,R).", "mem(b,[a|L],R) :- true | mem(b,L,R).",
].join("\n");
const NUMBERS = "mem(X,[Y|_],R) :- X =:= Y | R = yes.\nmem(X,[Y|L],R) :- X =\\= Y | mem(X,L,R).";
const ONE_OF_NUMBERS = { query: "mem(2,[1,2],R)", value: "R = yes" };
const FROM = "from(N,M,A) :- N =< M | A = [N|L], N1 := N + 1, from(N1,M,L).\nfrom(N,M,A) :- N > M | A = [].";
const restOf = /^mem\(X[^]*/m; // the clauses for any value

const doneBy = (hints, ...edits) => ({ hints, edits });
const mended = (...edits) => ({ hints: [], edits });

export default [
  ["prolog/is", ["N := N1 + 1"], [doneBy([0], ["N is N1 + 1", "N := N1 + 1"])]],
  ["prolog/if_then_else",
    ["write two clauses, each with its guard: max(X,Y,Z) :- X > Y | ..   max(X,Y,Z) :- X =< Y | .."],
    [doneBy([0], [/^max.*/m, "max(X,Y,Z) :- X > Y | Z = X.\nmax(X,Y,Z) :- X =< Y | Z = Y."])]],
  ["prolog/equal_in_guard",
    ["to test for a value write it in the head, as color(apple,C) :- ..", "to test for a value write it in the head, as color(banana,C) :- .."],
    [doneBy([0, 1], ["color(X,C) :- X = apple |", "color(apple,C) :- true |"], ["color(X,C) :- X = banana |", "color(banana,C) :- true |"])]],
  ["prolog/string", ["use an atom, as hello, or a list of integers"], [
    doneBy([0], ["\"hello world\"", "hello_world"]),
    { ...doneBy([0], ["\"hello world\"", "[104,105]"]), value: "X = [104,105]" },
  ]],
  ["prolog/not_equal", [
    `"not equal" of numbers is X =\\= Y and stands in the guard; for other terms write a clause for each case`,
    "numbers: X =:= Y in the guard; terms: the head says it, as mem(a,[a|_],R) :- ..",
  ], [doneBy([0, 1], [restOf, VALUES]), { ...doneBy([0, 1], ["X == Y", "X =:= Y"], ["X \\= Y", "X =\\= Y"]), ...ONE_OF_NUMBERS }]],
  ["prolog/test_by_binding", [], [mended([restOf, VALUES])]],
  ["prolog/result_twice", [
    "is it a result? a head builds nothing: write A for argument 3, and A = [N|L] in the body; so also in clause 2",
    "is it a test of numbers? name the second one N2, and write N =:= N2 in the guard",
    `${NO_EQUALITY} from(a,M,[a|L]) :- ..`,
  ], [
    doneBy([0], [/^from[^]*\nfrom.*/m, FROM]),
    { ...doneBy([1], ["[N|L]) :- N =< M", "[N2|L]) :- N =< M, N =:= N2"]), query: "from(1,2,[1,2]), S = 0", value: "S = 0" },
    { ...doneBy([2], [/^from.*/m, "from(1,M,[1|L]) :- true | from(2,M,L)."]), query: "from(1,0,[1|L]), L = [], S = 0", value: "S = 0" },
  ]],
  ["prolog/results_in_heads", [], [mended([/^from[^]*\nfrom.*/m, FROM])]],
  ["prolog/append", [
    "is it a result? name the second one L1, and write L1 = L in the body",
    "is it a test of numbers? name the second one L1, and write L =:= L1 in the guard",
    `${NO_EQUALITY} append([],a,a) :- ..`,
    "is it a result? a head builds nothing: write A for argument 3, and A = [H|R] in the body",
    "is it a test of numbers? name the second one H1, and write H =:= H1 in the guard",
    `${NO_EQUALITY} append([a|T],L,[a|R]) :- ..`,
  ], [
    doneBy([0, 3], ["append([],L,L).", "append([],L,L1) :- L1 = L."], ["L,[H|R]) :- append", "L,A) :- A = [H|R], append"]),
    {
      ...doneBy([1, 4], ["append([],L,L).", "append([],L,L1) :- L =:= L1 | true."], ["[H|R]) :- append", "[H1|R]) :- H =:= H1 | append"]),
      query: "append([1,2],3,[1,2|3]), R = 0", value: "R = 0",
    },
    {
      ...doneBy([2, 5], ["append([],L,L).", "append([],a,a)."], ["append([H|T],L,[H|R]) :-", "append([a|T],L,[a|R]) :-"]),
      query: "append([a],a,[a|a]), R = 0", value: "R = 0",
    },
  ]],
  ["prolog/result_in_head",
    ["a head binds nothing; clause 1 binds that argument in its body: write A for argument 3, and A = [H1|R] in the body"],
    [doneBy([0], ["[H1|R]) :-", "A) :- A = [H1|R],"])]],
  ["prolog/order", [], [mended(["kind(_,K) :- true", "kind(N,K) :- N =\\= 0"])]],
  ["prolog/order_in_list", [], [mended(["kind(_,K) :- true", "kind(N,K) :- N =\\= 0"])]],
  ["prolog/write", [NO_OUTPUT, NO_OUTPUT],
    [{ ...doneBy([0, 1], ["main :-", "main(L) :-"], ["write(X), nl", "L = [X]"]), query: "main(L)", value: "L = [3]" }]],
  ["kl1/module", [
    "there are no directives and modules: drop this line",
    "to test for a value write it in the head, as q(1) :- .., or compare numbers by =:=, as X =:= 1",
  ], [
    doneBy([0, 1], [":- module main.\n", ""], ["q(X) :- X = 1 |", "q(1) :- true |"]),
    doneBy([0, 1], [":- module main.\n", ""], ["X = 1 |", "X =:= 1 |"]),
  ]],
  ["kl1/otherwise", [
    "to compare numbers name the second one X1, and write X =:= X1 in the guard",
    `${NO_EQUALITY} mem(a,[a|_],R) :- ..`,
    "write the opposite of the other guards; of terms that are no numbers write a clause for each other value",
  ], [{ ...doneBy([0, 2], [restOf, NUMBERS.replaceAll("Y", "X1")]), ...ONE_OF_NUMBERS }, doneBy([1, 2], [restOf, VALUES])]],
  ["arithmetic/equal_computes", ["to compute write :=, as N1 := N - 1", "to compute write :=, as F := N * F1"],
    [doneBy([0, 1], ["N1 = N - 1", "N1 := N - 1"], ["F = N * F1", "F := N * F1"])]],
  ["arithmetic/own_value",
    ["what nobody else names is read or bound by nobody", "a variable gets one value; is F1 meant? F := N * F1"],
    [doneBy([0, 1], ["F := N * F.", "F := N * F1."])]],
  ["arithmetic/minus", ["write 0 - X"], [doneBy([0], [":= -X", ":= 0 - X"])]],
  ["arithmetic/sum_in_argument", ["compute it first: N1 := N - 1, down(N1,L1)"],
    [doneBy([0], ["down(N -1,L1)", "N1 := N - 1, down(N1,L1)"])]],
  ["arithmetic/gcd", ["compute it first: B1 := 0 - B, gcd(A,B1,G)"],
    [doneBy([0], ["gcd(A,0-B,G)", "B1 := 0 - B, gcd(A,B1,G)"])]],
  ["arithmetic/atoms_compared", [`the head tests for a term, as col(red,X) :- ..; ${UNEQUAL}`, UNEQUAL],
    [doneBy([0, 1], ["col(C,X) :- C =:= red", "col(red,X) :- true"], ["col(C,X) :- C =\\= red", "col(green,X) :- true"])]],
  ["arithmetic/division", [],
    [mended(["avg(L,A) :- true |", "avg([],A) :- true | A = none.\navg([Y|M],A) :- true | L = [Y|M],"])]],
  ["processes/circle", [], [mended(["true | ping(2,P,Q)", "true | Q = [1|Q1], ping(2,P,Q1)"])]],
  ["processes/two_writers", [], [mended(["left(X), right(X)", "left(L), right(R), X = both(L,R)"])]],
  ["processes/anonymous", ["each _ is a variable of its own: give the value a name, and use that"],
    [doneBy([0], ["_ := X * 2, L = [_|L1]", "Y := X * 2, L = [Y|L1]"])]],
  ["processes/not_closed", [], [mended(["gen(0,_) :- true | true.", "gen(0,S) :- true | S = []."])]],
  ["processes/unknown_message", [], [mended([/^client/m, "srv([dec(N,R)|Q]) :- true | R := N - 1, srv(Q).\nclient"], ["B)].", "B)|Q1], Q1 = []."])]],
  ["slips/swapped", [], [mended(["app(Y,X,Z1)", "app(X,Y,Z1)"])]],
  ["slips/no_last_clause", [], [mended([/^len/m, "len([],N) :- true | N = 0.\nlen"])]],
  ["slips/gap_in_guards", [], [mended(["X > Y", "X >= Y"])]],
  ["slips/never_bound", [], [mended(["sum([],_,_) :- true | true.", "sum([],A,S) :- true | S = A."])]],
  ["slips/turned_round", [], [mended(["[A|X]", "[X|A]"])]],
  ["slips/nested", [], [mended(["atom(H)", "integer(H)"])]],
];
