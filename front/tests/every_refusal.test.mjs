// All refusals of a program and a query at once: each has its own place in the texts as they were, and none is made up.
import assert from "node:assert";
import test from "node:test";
import { everyRefusal } from "../session/every_refusal.mjs";

const AFTER = "q(X) :- X == 2 | true."; // a clause that is refused at column 12

// What it is, the program's lines, the query, and the refusals: what ghcdb says of each, and where it stands.
const REFUSED = [
  ["nothing", ["p(_)."], "p(1)", []],
  ["a clause and a later one", ["p(X) :- X == 1 | true.", "r(_).", AFTER], "p(1), q(1)",
    ["program: F2 syntax at 1:12", "program: F2 syntax at 3:12"]],
  ["no call of a predicate is refused whose clause is out", ["p(X) :- q(X), r(X).", AFTER, "r(X) :- nosuch(X) | true."], "q(1), r(2)",
    ["program: F2 syntax at 2:12", "program: F3 not flat in clause 3"]],
  ["a clause's number is that in the text", [AFTER, "p(X,X).", "r(X) :- s(X) | true.", "s(_)."], "true",
    ["program: F2 syntax at 1:12", "program: F4 variable X repeated in the head of clause 2", "program: F3 not flat in clause 3"]],
  ["all predicates that nobody defines, each once", ["p(X) :- a(X), b(X), a(X).", "q(X) :- c, a(X)."], "p(1), d(2), a(3)",
    ["program: F5 undefined a/1", "program: F5 undefined b/1", "program: F5 undefined c/0", "query: F5 undefined d/1"]],
  ["program and query", ["p(X) :- X == 1 | true.", "q(X,X)."], "p(1",
    ["program: F2 syntax at 1:12", "program: F4 variable X repeated in the head of clause 2", "query: F2 syntax at 1:4"]],
  ["a full stop that is missing before a clause", ["p(X) :- true | X = 1", AFTER], "p(X)",
    ["program: F2 syntax at 2:1", "program: F2 syntax at 2:12"]],
  ["a full stop that is missing at the end", [AFTER, "p(X) :- true | X = 1"], "p(X)",
    ["program: F2 syntax at 1:12", "program: F2 syntax at 3:1"]],
  ["a refused clause without its full stop", ["p(X) :- X == 1 | true", AFTER], "p(X)",
    ["program: F2 syntax at 1:12", "program: F2 syntax at 2:1", "program: F2 syntax at 2:12"]],
  ["several goals of a clause, of which ghcdb tells those first where no token begins", ["p(X) :- X == 1, X \\= 2 | true, R is X + 1, q(R).", "q(_)."], "p(1)",
    ["program: F2 syntax at 1:19", "program: F2 syntax at 1:12", "program: F2 syntax at 1:34"]],
  ["a goal that is shorter than true", ["p(X) :- q(X), !, X == 1.", "q(_) :- !, r == 1.", "r :- q(1), !."], "true",
    ["program: F2 syntax at 1:15", "program: F2 syntax at 1:21", "program: F2 syntax at 2:9", "program: F2 syntax at 2:15", "program: F2 syntax at 3:12"]],
  ["an or, an if and a text in quotes have parts, and are one error", ["p(X) :- X > 1 -> q(X), r(X) ; s(X), t(X).", "q(X) :- if X > 1 then r(X), r(X) else s(X).", "r(X) :- X = \"a, b\", s == 1."], "true",
    ["program: F2 syntax at 1:29", "program: F2 syntax at 2:12", "program: F2 syntax at 3:13"]],
  ["brackets that are not closed may hold the rest of the clause", ["p(X) :- q(X)), r == 1.", "q(X) :- r(X, s == 1.", "r(X) :- s == 1, tX), u == 1."], "true",
    ["program: F2 syntax at 1:13", "program: F2 syntax at 2:16", "program: F2 syntax at 3:12"]],
  ["a head and a guard, each variable and test once", ["p(X,X,Y,Y) :- q(X), X > Z, r(Y) | s(X).", "p(_,X,X) :- true | true."], "true",
    ["program: F4 variable X repeated in the head of clause 1", "program: F4 variable Y repeated in the head of clause 1", "program: F3 not flat in clause 1", "program: F3 not flat in clause 1", "program: F3 not flat in clause 1",
      "program: F5 undefined s/1", "program: F4 variable X repeated in the head of clause 2"]],
  ["goals of a query whose brackets are not closed", ["p(_)."], "p(1) == 2, p(2) == 3, r(4), p(5", ["query: F2 syntax at 1:7"]],
  ["a clause whose head cannot be read may be anybody's", ["(X,Y) :- true | X = Y.", AFTER], "p(1,2)", ["program: F2 syntax at 1:1", "program: F2 syntax at 2:12"]],
  ["a directive is nobody's clause", [":- module(a, [p/1]).", AFTER], "p(1,2)", ["program: F2 syntax at 1:1", "program: F2 syntax at 2:12", "query: F5 undefined p/2"]],
  ["goals of the query", ["p(_)."], "p(1) == 2, p(2) == 3, r(4), s(5)",
    ["query: F2 syntax at 1:7", "query: F2 syntax at 1:18", "query: F5 undefined r/1", "query: F5 undefined s/1"]],
  ["a clause of several lines", ["p(X) :- ( X > 1 -> true", "        ; X < 0 ),", "        r(X).", AFTER], "p(X)",
    ["program: F2 syntax at 2:9", "program: F2 syntax at 4:12"]],
  ["a full stop within what is refused", ["p(X) :- X = \"a. b\" | true.", "q(X) :- true | X := 3.14 * 2.", AFTER], "p(X)",
    ["program: F2 syntax at 1:13", "program: F2 syntax at 2:23", "program: F2 syntax at 3:12"]],
  ["a comment of another language", ["/* it's one. a(1) */", "p(X) :- /* == */ true | X = 1. /* p */", AFTER], "p(X)",
    ["program: F2 syntax at 1:6", "program: F2 syntax at 2:9", "program: F2 syntax at 2:32", "program: F2 syntax at 3:12"]],
  ["what nobody sees", ["p(X) :-\u00a0X == 1 | true."], "p(X)", ["program: F2 syntax at 1:8", "program: F2 syntax at 1:13"]],
  ["letters of several bytes before another clause in the line", ["p(ä,'ö') :- true | true.   p(X,Y) :- X == Y | true. % ä"], "true",
    ["program: F2 syntax at 1:3"]],
  ["a head with a large letter", ["Append([],Y,Z) :- true | Z = Y.", "append([A|X],Y,[A|Z]) :- true | append(X,Y,Z)."], "append([],a,R), apend(1)",
    ["program: F2 syntax at 1:1", "program: F4 variable A repeated in the head of clause 2", "query: F5 undefined apend/1"]],
  ["a head whose brackets are not closed", ["p(X,Y :- true | X = Y.", "q(X) :- true | p(X,1), r(X)."], "p(X,1)",
    ["program: F2 syntax at 1:7", "program: F5 undefined r/1"]],
  ["a call with other arguments of a head that is refused", ["p(X Y) :- true | X = Y.", "q(X) :- true | p(X,1)."], "p(X,1)",
    ["program: F2 syntax at 1:5"]],
  ["a limit", [`p(${"_,".repeat(300)}_).`, AFTER], "true", ["program: F2 syntax at 2:12", "program: F6 limit: arity"]],
  ["more than twenty", Array(30).fill(AFTER), "true", Array.from({ length: 20 }, (none, line) => `program: F2 syntax at ${line + 1}:12`)],
];

test("each refusal is told, at its place, and none that the others bring about", async () => {
  for (const [what, lines, query, said] of REFUSED) {
    const refusals = await everyRefusal({ text: `${lines.join("\n")}\n`, query }, undefined);
    assert.deepStrictEqual(refusals.map((refusal) => refusal.said), said, what);
  }
});

test("each has its cause, and shows the line as it was", async () => {
  const lines = ["p(X) :- X == 1 | true.", "q(X,X) :- true | p(X)."], text = `${lines.join("\n")}\n`;
  const [first, second, third, ...more] = await everyRefusal({ text, query: "p(1), r", file: "a.ghc" }, undefined);
  assert.deepStrictEqual(more, []);
  assert.deepStrictEqual(first.lines.slice(0, 5),
    ["syntax: == is not of the language", " --> a.ghc:1:12", "  |", `1 | ${lines[0]}`, "  |            ^"]);
  assert.deepStrictEqual(second.lines.slice(0, 5),
    ["not linear, clause 2: X stands twice in the head", " --> a.ghc:2:5", "  |", `2 | ${lines[1]}`, "  |     ^"]);
  assert.deepStrictEqual([third.cause.isQuery, third.lines[1], third.lines[3]], [true, " --> query:1:7", "1 | p(1), r"]);
});

test("what ghcdb said already is not asked for again, and where it was something else no other is told", async () => {
  for (const said of ["history: F24 history line 2", "program: F26 device", "ghcdb was ended by SIGKILL"]) {
    const refusals = await everyRefusal({ text: "p(X) :- X == 1 | true.\n", query: "p(1)" }, undefined, said);
    assert.deepStrictEqual(refusals.map((refusal) => refusal.said), [said]);
  }
});
