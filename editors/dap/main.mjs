// What editors/ghcdb-adapter does; how it is called stands there.
import fs from "node:fs";
import { Adapter } from "./adapter.mjs";
import { Wire } from "./wire.mjs";
import { nativeProgram } from "../../front/session/program.mjs";

const log = process.env.GHCDB_MESSAGES;
const note = (sign, message) => { if (log) fs.appendFileSync(log, `${sign} ${JSON.stringify(message)}\n`); };

const adapter = new Adapter({
  native: nativeProgram(),
  send: (message) => {
    note("<-", message);
    wire.send(message);
  },
  leave: () => wire.leave(0),
});
const wire = new Wire(process.stdin, process.stdout, {
  hear: (message) => {
    note("->", message);
    adapter.hear(message);
  },
  gone: 0,
});
