// What each word of `F6 limit: WORD` means.
// Made by tools/make-commands of crates/ghc_term/src/limit.rt and the constants of the code.
const Limits = {
  text: "the bytes of a program or a query: 1,048,576 at most",
  clauses: "the clauses of a program: 10,000 at most",
  arity: "the arguments of a call or a structure: 255 at most",
  depth: "the brackets that are open at one place: 64 at most; the most operators that may stand inside one another " +
    "in what is asked for: 1,000",
  goals: "the guards, or the body goals, of a clause or a query: 1,000 at most",
  variables: "the variables of a clause or a query: 1,000 at most",
  term: "the nodes of an input term: 10,000 at most",
  print: "the bytes of a printed term or goal: 1,048,576 at most",
  line: "the bytes of a console line: 1,048,576 at most",
  version: "a history of a version that is not read here",
};

export default Limits;
