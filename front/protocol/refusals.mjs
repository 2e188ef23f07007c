// What each refusal means, and what helps.
// Made by tools/make-commands of crates/ghc_term/src/fault.rt and refusals.table.
const Refusals = {
  F1: "a growth found no memory; the session goes on",
  F2: "a text is not of its grammar; look at that line and column",
  F3: "a guard is no predefined test on the head's variables; write tests of variables of the head alone before the " +
    "bar",
  F4: "a variable stands twice in a head; name one of the two otherwise",
  F5: "a call of a predicate that has no clause; check name and number of arguments",
  F6: "something is too large; FORMATS 14 lists the limits",
  F7: "no goal has this name; goals lists those that are there; an input stream takes in K TERM",
  F8: "the clause is not one of the goal's predicate; list tells the clauses and their numbers; X = T and X := E " +
    "have none",
  F9: "the goal waits for a binding; step a goal that has the variable: stuck tells which",
  F10: "no clause can ever be selected for the goal; clauses G tells why; then roll the step that led there",
  F11: "two terms can not be made equal; roll the step that led there",
  F12: "a variable would stand in its own value; roll the step that led there",
  F13: "an expression has no value; roll the step that led there",
  F14: "no open stream has this number; goals lists the open streams",
  F15: "the tail of a stream was bound by a goal; who X tells which step bound it",
  F16: "the step is not in the record; records lists the kept steps",
  F17: "another kept step depends on the step; roll N takes it back with all that does",
  F18: "the step is not on the shelf; shelf lists what was taken back",
  F19: "the step would now have another effect; step G takes the goal as it is now",
  F20: "a proposal does not fit the state any more; propose anew",
  F21: "an order of the steps is not lawful; causes lists what has to stand before what",
  F22: "no further step can be kept or numbered; take steps back, or begin anew",
  F23: "no variable has this name; goals lists the goals with their variables",
  F24: "a line of a history is wrong, counted from 1; look at that line of the history",
  F25: "the line is no command; help lists the commands",
  F26: "a device failed; look at the file or the pipe",
};

export default Refusals;
