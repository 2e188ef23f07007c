// For tests of scripts: a session is played in this process.
import { Readable } from "node:stream";
import { play } from "../../scripted.mjs";

/** What is told of a text of lines: its output, its errors, and the status. */
async function played(words, input) {
  let out = "", errors = "";
  const tell = async (lines) => { out += lines.map((told) => `${told}\n`).join(""); };
  const teller = { begin() {}, hear: tell, end: tell, ended() {} };
  const tellError = (text) => { errors += text; };
  const status = await play(words, Readable.from([Buffer.from(input, "latin1")]), teller, tellError);
  return { out, errors, status };
}

export { played };
