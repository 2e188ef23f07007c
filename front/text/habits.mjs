// What people write from other languages and what stands for it here: marks, words of guards, predicates that are built in elsewhere.
const COMMENT = ["/* .. */ is no comment here", "a comment begins with % and ends with its line"];

/** What is said of several words, each by its name. */
const each = (words, say) => Object.fromEntries(words.map((word) => [word, say(word)]));

// Marks, by how the text goes on at the place of the refusal: `[pattern, what is said, what to write instead ..]`.
// Openings, as {X}, are filled in by own_words.
/** @type {[RegExp, string, string][]} */
const MARKS = [
  [/^\/\//, "// is neither a comment nor an operator here", "a comment begins with %; integer division is /, the remainder mod"],
  [/^[“”„‘’]/u, "curly quotes are not of the language", "write an atom without quotes, as hello"],
  [/^"/, "there are no strings", "use an atom, as hello, or a list of integers"],
  [/^'/, "there are no quoted atoms", "a name begins with a small letter and has letters, digits and _"],
  [/^`/, "` is not of the language", "a name begins with a small letter and has letters, digits and _"],
  [/^[{}]/, "there are no {..}", "use a structure, as pair(a,b)"],
  [/^\\==/, "\\== is not of the language", "\"not equal\" of numbers is {X} =\\= {Y} and stands in the guard; for other terms write a clause for each case"],
  [/^\\=/, "\\= is not of the language", "\"not equal\" of numbers is {X} =\\= {Y} and stands in the guard; for other terms write a clause for each case"],
  [/^\\\+/, "there is no negation", "write a clause for the other case"],
  [/^!=/, "!= is written =\\=", "\"not equal\" of numbers is {X} =\\= {Y} and stands in the guard"],
  [/^!/, "there is no cut", "the bar | commits to the clause"],
  [/^;/, "there is no \"or\"", "write two clauses"],
  [/^\?-/, "a query is given without ?-", "drop the ?-"],
  [/^\?/, "? is not of the language", "a variable begins with a large letter, as X"],
  [/^&+/, "& is not of the language", "goals and tests are separated by commas"],
  [/^#/, "# is not of the language", "a comment begins with %; there is nothing to import"],
  [/^\^/, "there is no operator ^", "multiply: {R} := {POWER}"],
  [/^@/, "there is no @", "a goal has no place and no priority: drop it"],
  [/^[$~]/, "no mark of the language begins so", "a clause is: head :- guard | body."],
  [/^:/, ": is not of the language", "a clause is head :- guard | body.  There are no modules"],
  [/^\ufeff/, "the text begins with a byte order mark, which nobody sees", "save it as UTF-8 without BOM"],
  [/^\u00a0/, "a no-break space stands here, which looks like a blank", "write a blank"],
  [/^[\x00-\x1f\x7f]/, "a control character stands here, which nobody sees", "drop it"],
  [/^≥/, "≥ is written >=", "as {X} >= {Y}, in the guard"],
  [/^≤/, "≤ is written =<", "as {X} =< {Y}, in the guard"],
  [/^≠/, "≠ is written =\\=", "as {X} =\\= {Y}, for numbers, in the guard"],
  [/^[‐-―−]/u, "this dash is no minus", "write - in its place"],
  [/^[^\x00-\x7f]/u, "this letter is not of the language", "names have the 52 letters of ASCII, digits and _; other letters may stand in comments alone"],
  [/^\\\//, "there is no operator \\/", "the operators are + - * / mod"],
  [/^\\/, "\\ begins no mark here but =\\=", "\"not equal\" of numbers is =\\= and stands in the guard"],
];

// Two marks side by side that are one elsewhere.
const PAIRS = {
  "==": ["== is not of the language", "numbers: {X} =:= {Y} in the guard; terms: the head says it, as {VALUE} :- .."],
  "<=": ["<= is written =<", "{X} =< {Y}"],
  "=>": ["=> is written >=", "\"at least\" is >=; a clause is head :- guard | body."],
  "<-": ["<- is written :-", "a clause is: head :- guard | body."],
  "->": ["there is no ->", "write two clauses, each with its guard: {HEAD} :- .. | .."],
  ...each(["--", "++", "+=", "-="], (mark) =>
    [`${mark} is not of the language`, `a variable gets one value; name a new one: {N1} := {N} ${mark[0]} ${mark[1] === "=" ? "{Y}" : "1"}`]),
  "=/": ["=/= is written =\\=", "{X} =\\= {Y}, for numbers, in the guard"],
  "||": ["there is no \"or\"", "write two clauses"],
  "**": ["there is no operator **", "multiply: {R} := {POWER}"],
  "<>": ["<> is written =\\=", "{X} =\\= {Y}, for numbers, in the guard"],
  "<<": ["there is no operator <<", "multiply: {R} := {B} * {TWOS}"],
  ">>": ["there is no operator >>", "divide: {R} := {B} / {TWOS}"],
  "=.": ["there is no =..", "the head takes a term apart, as {NAME}(f(X)) :- .."],
  "/\\": ["there is no operator /\\", "the operators are + - * / mod"],
  "//": ["there is no operator //", "integer division is /, the remainder mod"],
};

// Words between other words that are operators elsewhere.
const WORDS = {
  is: ["`is` is written :=", "as {X} := {Y}"],
  div: ["there is no operator div", "integer division is /, the remainder mod"],
  rem: ["there is no operator rem", "the remainder is mod"],
  xor: ["there is no operator xor", "the operators are + - * / mod"],
  and: ["`and` is a comma", "as {X}, {Y}"],
  or: ["there is no \"or\"", "write two clauses"],
  not: ["there is no negation", "write a clause for the other case"],
  if: ["there is no `if`", "a clause is head :- guard | body; each case is a clause with its own guard"],
  then: ["there is no `then`", "each case is a clause with its own guard"],
  else: ["there is no `else`", "each case is a clause with its own guard"],
  when: ["there is no `when`", "a clause is: head :- guard | body."],
  let: ["there is no `let`", "write the goal alone, as Y := X + 1"],
  var: ["there is no `var`", "a variable is there when it is named; it begins with a large letter"],
  return: ["there is no `return`", "a result is an argument, which the body binds, as R = X"],
  import: ["there is nothing to import", "all clauses stand in one text"],
};

// Tests of other languages.
const TESTS = {
  ...each(["otherwise", "alternatively"], (word) => [`${word} is not of this language`, "write the opposite of the other guards{OPPOSITE}"]),
  else: ["there is no else", "write the opposite of the other guards{OPPOSITE}"],
  ...each(["nonvar", "bound", "known", "data"], (word) => [`${word} is written wait`, "wait({V}) says yes when {V} is bound"]),
  ground: ["there is no test ground", "wait({V}) says yes when {V} is bound, whatever stands in it"],
  ...each(["var", "unbound"], () =>
    ["no test tells that a variable is unbound", "it may be bound later; wait({V}), integer({V}), atom({V}), list({V}) wait until it is"]),
  diff: ["there is no test diff", "for numbers write {V} =\\= {W}; for other terms write a clause for each case"],
  number: ["number is written integer", "all numbers are integers"],
  is_list: ["is_list is written list", "list({V}) says yes to [] and to a cell"],
  atomic: ["there is no test atomic", "use integer({V}) in one clause and atom({V}) in another"],
  compound: ["there is no test compound", "the head says it, as {NAME}(f({V})) :- .."],
  ...each(["fail", "false"], (word) => [`there is no ${word}`, "drop the clause: a goal fails where no clause says yes"]),
};

// Predicates that are built in elsewhere, and what stands for them.
const NO_OUTPUT = "there is no output: give the process a list, and look at it by `show`";
const PREDICATES = {
  ...each(["write", "writeln", "print", "format", "nl", "printf", "println", "display"], () => NO_OUTPUT),
  read: "there is no input but streams: write instream(S) in the query, and feed it by `in 1 TERM`",
  fail: "there is no fail: a goal fails where no clause says yes", false: "there is no false: a goal fails where no clause says yes",
  not: "there is no negation: write a clause for the other case", halt: "`quit` ends a session",
  assert: "a program does not change while it runs: hand on what is to be remembered as an argument", assertz: "a program does not change while it runs: hand on what is to be remembered as an argument",
  findall: "there is no search for all answers: a list is made by a process that goes on with its tail",
  ...each(["wait", "integer", "atom", "list"], (word) => `${word} is a test, and stands before the bar`),
  instream: "instream takes one variable, and stands in the query: instream(S)",
  functor: "the head takes a term apart, as p(f(X)) :- ..", arg: "the head takes a term apart, as p(f(X)) :- ..",
  call: "goals are no terms: `call` is not there", is: "`is` is written :=, as Y := X + 1",
  append: "nothing is built in: write its clauses, as in examples/append.ghc", merge: "nothing is built in: write its clauses, as in examples/merge.ghc",
  member: "nothing is built in: write its clauses", length: "nothing is built in: write its clauses", reverse: "nothing is built in: write its clauses, as in examples/reverse.ghc",
};

export { COMMENT, MARKS, PAIRS, WORDS, TESTS, PREDICATES };
