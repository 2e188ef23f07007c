// A session as an editor keeps it: what the editor gives for one line is one line, and a history that it shows or
// writes is whole.
import fs from "node:fs";
import path from "node:path";
import { whyNoName } from "../../front/session/files.mjs";
import { unlessEnded } from "../../front/session/program.mjs";
import { Session } from "../../front/session/session.mjs";
import { isWhole } from "../../front/session/way_back.mjs";
import { CANCELLED, Refused } from "./requests.mjs";

const CONTROL = /[\u0000-\u0008\u000a-\u001f\u007f-\u009f]/; // a line feed would make two lines of one

class EditorSession extends Session {
  /** Sends a line; one that would be two, or that a terminal would not take, is refused and not sent. */
  async ask(line) {
    if (CONTROL.test(line)) throw new Refused("a line feed or another control stands in it: one line is taken at a time");
    if (this.isCancelled) throw CANCELLED;
    const reply = await unlessEnded(super.ask(line), (ended) => { throw this.isCancelled ? CANCELLED : ended; });
    if (!/^ *save( |$)/.test(line) || isWhole(reply)) return reply;
    throw new Refused("F1 no memory: lines of the history are missing, so it is none, and nothing was saved");
  }

  /**
   * Ends the line that is asked, where one is: the session is as before it. As long as `isCancelled` says so no other
   * line is asked. Throws where the line cannot be ended: then it goes on.
   */
  async cancel(isAsking = this.program.isBusy) {
    this.isCancelled = true;
    if (!isAsking) return;
    this.ending ??= this.endRun();
    try {
      await this.ending;
    } catch (error) {
      this.isCancelled = false;
      throw error;
    } finally {
      this.ending = undefined;
    }
  }

  /** Writes the session into a file beside the program, and tells so. No file is written over but its own. */
  async saveInto(name, version) {
    const file = path.resolve(path.dirname(this.given.file), name), why = whyNoName(name);
    if (why !== undefined) throw new Refused(why);
    if (this.savedInto !== file && fs.existsSync(file)) throw new Refused(`${file} is there: name another file`);
    const refusal = await this.save(file, version).catch((error) => {
      if (error.syscall === undefined) throw error; // of the system's calls
      return `${file}: ${error.message}`;
    });
    if (refusal !== undefined) throw new Refused(`${refusal}; nothing was saved`);
    return [`saved in ${file}: with "load" in the launch configuration a session goes on from it`];
  }
}

export { EditorSession };
