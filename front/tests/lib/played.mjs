// A session for tests that plays the replies to lines, as the console would give them of a program.
import Kept from "../../run/kept.mjs";
import * as Reader from "../../text/reader.mjs";
import Run from "../../run/run.mjs";

const PROGRAM = `% a door
open(Door,Key) :- true | turn(Key).
turn(_) :- true | true.
pass(Door) :- wait(Door) | true.
`;
const LEAP = ["REDU 1 0.1 by 1", "CALL 1.1 turn(_0_2)", "REDU 2 1.1 by 2", "stopped quiet"];
const OPENED = "lost by 1 0.1 by 1 open(_0_1,_0_2)", TURNED = "lost by 2 1.1 by 2 turn(_0_2)";

/** A session that plays the replies to lines, and knows no others. `asked` are those that it was given. */
function played(query, replies, length = 1) {
  const kept = new Kept(), run = new Run(Reader.readProgram(PROGRAM), query, kept), asked = [];
  for (let time = 0; time < length; time += 1) {
    kept.learn("leap", LEAP.map((line) => line.replace(/^REDU (\d)/, `REDU ${time}$1`)));
  }
  const ask = async (line) => {
    asked.push(line);
    return replies[line] ?? ["F25 command"];
  };
  return { run, kept, asked, ask, look: async () => run, clauses: run.clauses, variables: run.query.variables };
}

export { OPENED, TURNED, played };
