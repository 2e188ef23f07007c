// Which goals are one process: a goal and what it becomes. An editor shows each process as a thread, by its number.
//
// A step's last goal of its own predicate goes on with its process; where it has none, its last call does. All other goals that it
// makes begin a process.
class Processes {
  constructor(session) {
    this.session = session;
    this.numbers = new Map(); // by the goal's name; no name is given twice
    this.last = 0;
  }

  /** The goal that goes on with the process of a step; undefined where none does. */
  successorOf(step) {
    const { run, clauses } = this.session, predicate = run.predicateOf(step.goal);
    if (predicate === undefined || step.clause === null) return undefined;
    const calls = clauses[step.clause - 1].goals.map((goal, place) => ({ goal, name: `${step.number}.${place + 1}` })).filter(({ goal }) => goal.sort === "call");
    const same = calls.filter(({ name }) => run.predicateOf(name) === predicate);
    return (same.at(-1) ?? calls.at(-1))?.name;
  }

  /** The number of the process of a goal. */
  of(goal) {
    const chain = [];
    let at = goal;
    while (!this.numbers.has(at)) {
      chain.push(at);
      const step = this.session.run.makerOf(at);
      if (step === undefined || step.goal === null || this.successorOf(step) !== at) break;
      at = step.goal;
    }
    const number = this.numbers.get(at) ?? (this.last += 1);
    chain.forEach((name) => this.numbers.set(name, number));
    return number;
  }
}

export { Processes };
