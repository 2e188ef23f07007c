// What terminal/json does; how it is called stands there.
import { tried } from "../front/session/files.mjs";
import { ObjectText } from "./objects.mjs";
import { playStandardInput, write } from "./scripted.mjs";

const LOOKS = /^ *(records|since|effects|explain)( |$)/; // lines of whose objects the run is a part

class Teller {
  begin(bytes, session) {
    this.session = session;
    const textOf = (goal) => tried(() => session.run.textOf(goal), ""); // one may be too long to be made
    this.object = new ObjectText(bytes.toString("utf8"), textOf);
  }

  hear(lines) {
    return write(this.object.hear(lines));
  }

  async end(lines) {
    if (LOOKS.test(this.object.line)) await this.session.look();
    await write(this.object.end(lines));
    this.object = undefined;
  }

  ended({ errors, status }, refusals) {
    return write((this.object ?? new ObjectText(null)).ended(errors.trimEnd(), status, refusals));
  }
}

playStandardInput(new Teller());
