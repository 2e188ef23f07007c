// What the texts tell a reader to write instead: it is in the reader's own names, and done as told does what was meant.
import assert from "node:assert";
import test from "node:test";
import * as Causes from "../text/causes.mjs";
import * as Nearest from "../text/nearest.mjs";
import { engineOfPage } from "../session/engine_of_page.mjs";
import MISTAKES from "./lib/mistakes.mjs";

const { nearest } = Nearest;

const NOT_IN = "mem(_,[],R) :- true | R = no.";
const MEMBER = [NOT_IN, "mem(X,[X|_],R) :- true | R = yes.", "mem(X,[_|L],R) :- true | mem(X,L,R)."];
const NUMBER_IN = [NOT_IN, "mem(X,[X1|_],R) :- X =:= X1 | R = yes.", "mem(X,[X1|L],R) :- X =\\= X1 | mem(X,L,R)."];
const A_OR_B_IN = [
  NOT_IN, "mem(a,[a|_],R) :- true | R = yes.", "mem(b,[b|_],R) :- true | R = yes.",
  "mem(a,[b|L],R) :- true | mem(a,L,R).", "mem(b,[a|L],R) :- true | mem(b,L,R).",
];
const SUM = ["sum([],S) :- true | S = 0.", "sum([X|L],S) :- true | sum(L,S1), S := S1 + X."];
const MAX = "max(X,Y,Z) :- X < Y | Z = Y.", APPEND = "append([],L,L1) :- L1 = L.";
const NO_EQUALITY = "other terms have no test of equality: write a clause for each value, as";

// Programs that ghcdb refuses with F4, the cures, and programs done as these tell, each with a query and its value.
const REPEATED = [
  {
    program: MEMBER,
    hints: [
      "to compare numbers name the second one X1, and write X =:= X1 in the guard",
      `${NO_EQUALITY} mem(a,[a|_],R) :- ..`,
    ],
    done: [
      { program: NUMBER_IN, query: "mem(2,[1,2],R)", value: "R = yes" },
      { program: A_OR_B_IN, query: "mem(b,[a,b],R)", value: "R = yes" },
    ],
  },
  {
    program: ["max(X,Y,X) :- X >= Y | true.", MAX],
    hints: ["a head binds nothing: name the second one X1, and write X1 = X in the body"],
    done: [{ program: ["max(X,Y,X1) :- X >= Y | X1 = X.", MAX], query: "max(3,2,R)", value: "R = 3" }],
  },
  {
    program: [APPEND, "append([H|T],L,[H|R]) :- append(T,L,R)."],
    hints: ["a head builds nothing: write A for argument 3, and A = [H|R] in the body"],
    done: [{
      program: [APPEND, "append([H|T],L,A) :- A = [H|R], append(T,L,R)."], query: "append([1],[],R)", value: "R = [1]",
    }],
  },
  {
    program: ["from(N,M,[N|L]) :- N =< M | N1 := N + 1, from(N1,M,L).", "from(N,M,[]) :- N > M | true.", ...SUM],
    hints: [
      "is it a result? a head builds nothing: write A for argument 3, and A = [N|L] in the body; so also in clause 2",
      "is it a test of numbers? name the second one N2, and write N =:= N2 in the guard",
      `${NO_EQUALITY} from(a,M,[a|L]) :- ..`,
    ],
    done: [
      {
        program: [
          "from(N,M,A) :- N =< M | A = [N|L], N1 := N + 1, from(N1,M,L).", "from(N,M,A) :- N > M | A = [].", ...SUM,
        ],
        query: "from(1,3,L), sum(L,R)", value: "R = 6",
      },
      {
        program: ["from(N,M,[N2|L]) :- N =< M, N =:= N2 | N1 := N + 1, from(N1,M,L).", "from(N,M,[]) :- N > M | true."],
        query: "from(1,2,[1,2]), R = done", value: "R = done",
      },
      { program: ["from(a,M,[a|L]) :- true | true."], query: "from(a,2,[a,2]), R = done", value: "R = done" },
    ],
  },
  {
    program: ["first([X|_],X)."],
    hints: [
      "is it a result? name the second one X1, and write X1 = X in the body",
      "is it a test of numbers? name the second one X1, and write X =:= X1 in the guard",
      `${NO_EQUALITY} first([a|_],a) :- ..`,
    ],
    done: [
      { program: ["first([X|_],X1) :- X1 = X."], query: "first([7,8],R)", value: "R = 7" },
      { program: ["first([X|_],X1) :- X =:= X1 | true."], query: "first([7,8],7), R = done", value: "R = done" },
      { program: ["first([a|_],a) :- true | true."], query: "first([a,b],a), R = done", value: "R = done" },
    ],
  },
];

test("a variable twice in a head: each cure, done as told, gives what was meant and no clash", async () => {
  const { engine } = await engineOfPage(), textOf = (program) => `${program.join("\n")}\n`;
  for (const { program, hints, done } of REPEATED) {
    const text = textOf(program), refused = engine.open({ program: text, query: "true" }).start;
    assert.match(refused, /^program: F4 /);
    const cause = Causes.causeOf(refused.trim().replace("program: ", ""), { text, which: "program" });
    assert.deepStrictEqual(cause.hints, hints);
    for (const { program: changed, query, value } of done) {
      const session = engine.open({ program: textOf(changed), query });
      assert.strictEqual(session.start, "", changed.join(" "));
      assert.strictEqual(session.line("leap").at(-1), "stopped quiet", changed.join(" "));
      assert.deepStrictEqual([session.line("show R"), session.line("goals")], [[value], ["none"]]);
    }
  }
});

// The language's own words; names that a cure gives to something new; and the hints that speak of nobody's text.
const LANGUAGE = new Set(["wait", "integer", "atom", "list", "instream", "mod"]), NEW = /^[A-HNSV]\d*$/;
const GENERAL = new Set([
  "use a structure, as pair(a,b)", "a pair is a structure, as pair(1,2)", "a pair is a structure, as pair(A,B), or two arguments",
  "[A,B|C], and not [A|B|C]", "goals are calls, as p(X), and X = Y, X := E; there is no call of a term",
  "names have the 52 letters of ASCII, digits and _; other letters may stand in comments alone",
  "save it as UTF-8 without BOM", "a clause is head :- guard | body.  There are no modules",
  "the tests are true, wait(X), integer(X), atom(X), list(X), and < =< > >= =:= =\\= between expressions",
  "comparisons are tests of clauses; to compute write Y := X + 1, and look at it by `show`",
  "write instream(S), and feed it by `in 1 TERM`", "a result is an argument, which the body binds, as R = X",
  "an expression stands there, as X + 1; to name a term write =", "write the opposite of the other guards, as X =\\= 0",
  "to compute write :=, as Y := X + 1", "names begin with a small letter: f(..)",
]);

/** The hints that a program and a query get. */
function hintsOn(program, query, said) {
  const [, which, refusal] = /^(program|query): (.*)$/.exec(said) ?? [], isQuery = which === "query";
  const given = { text: isQuery ? query : program, which, isQuery, program };
  const causes = which === undefined ? Causes.notesOn(program, "program") : [Causes.causeOf(refusal, given)];
  return causes.flatMap(({ hints }) => hints);
}

const lettersOf = (name) => name.replace(/\d+$/, "");

/** The names of variables and predicates in a hint that a text does not have, and that are no new ones made of its own. */
function foreignIn(hint, text) {
  const words = new Set(text.match(/\w+/g)), letters = new Set([...words].map(lettersOf));
  const isOwn = (name) => words.has(name) || (/\d$/.test(name) && letters.has(lettersOf(name)));
  const variables = (hint.match(/\b[A-Z]\w*/g) ?? []).filter((name) => !NEW.test(name));
  const predicates = [...hint.matchAll(/\b([a-z]\w*)\(/g)].map(([, name]) => name);
  return [...variables, ...predicates.filter((name) => !LANGUAGE.has(name))].filter((name) => !isOwn(name));
}

test("a cure names the reader's own predicates and variables, or speaks of nobody's text", () => {
  let general = 0;
  for (const [what, program, query, said] of MISTAKES) {
    for (const hint of hintsOn(program, query, said)) {
      if (GENERAL.has(hint)) general += 1;
      else assert.deepStrictEqual(foreignIn(hint, `${program} ${query}`), [], `${what}: ${hint}`);
    }
  }
  assert.ok(general < 40, `${general} hints speak of nobody's text`);
});

test("what is mistyped is near, what is another word is not", () => {
  const commands = ["step", "leap", "redo", "goals", "records", "threads", "trace", "run", "explain", "cont", "halt"];
  const typed = { setp: "step", stp: "step", explian: "explain", recrods: "records", goal: "goals", Redo: "redo" };
  for (const [word, other] of Object.entries(typed)) assert.strictEqual(nearest(word, commands), other, word);
  for (const word of ["reads", "notrace", "rn", "rum", "so", "cat", "spent", ""]) {
    assert.strictEqual(nearest(word, commands), undefined, word);
  }
  assert.strictEqual(nearest("pr", ["pl", "p"]), undefined);
  assert.strictEqual(nearest("abcdefghijkl", ["abcdefghijxy"]), "abcdefghijxy");
  assert.strictEqual(nearest("abcdefghijkl", ["abcdefghixyz"]), undefined);
  assert.strictEqual(nearest("abcdefg", ["abcdexy"]), undefined);
});
