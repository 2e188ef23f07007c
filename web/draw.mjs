// What web/picture does; how it is called stands there.
import fs from "node:fs";
import path from "node:path";
import { fileURLToPath } from "node:url";
import { parseArgs } from "node:util";
import * as Asking from "../front/protocol/asking.mjs";
import * as Clauses from "../front/text/clauses.mjs";
import * as Graph from "../front/run/graph.mjs";
import { arcsAmong } from "../front/run/arcs.mjs";
import Naming from "./naming.mjs";
import * as Picture from "./picture.mjs";
import * as SessionText from "../front/protocol/session_text.mjs";
import { engineOfPage } from "../front/session/engine_of_page.mjs";
import * as Replies from "../front/protocol/replies.mjs";

const HERE = path.dirname(fileURLToPath(import.meta.url));

/**
 * Ends with words on why.
 * @returns {never}
 */
function stop(why) {
  process.stderr.write(`web/picture: ${why}\n`);
  return /** @type {never} */ (process.exit(1));
}

const text = Object.fromEntries(["program", "query", "by", "theme", "room", "title"].map((name) => [name, { type: "string" }]));

function words() {
  try {
    const { values, positionals } = parseArgs({ options: text, allowPositionals: true });
    if (positionals.length !== 1) stop("name one session or history");
    return { ...values, file: positionals[0] };
  } catch (error) {
    return stop(error.message);
  }
}

/** What is to be played: program, query, history and lines. */
function readPlay(given) {
  const told = fs.readFileSync(given.file, "utf8");
  const exampleOf = (name) => fs.readFileSync(path.join(HERE, "..", "examples", name), "utf8");
  if (!told.startsWith("ghc-history ")) return SessionText.read(told, exampleOf) || stop(`${given.file} is neither a session nor a history`);
  if (given.program === undefined || given.query === undefined) stop("a history needs --program FILE and --query TEXT");
  return { program: fs.readFileSync(given.program, "utf8"), query: given.query, history: told, lines: [] };
}

async function main() {
  const given = words(), play = readPlay(given), { engine } = await engineOfPage();
  const session = engine.open({ program: play.program, query: play.query, history: play.history || undefined });
  if (session.refused) stop(session.start.trim());
  session.lines(play.lines);
  const told = Asking.whereItStands(session, play.query), steps = Replies.readRecords(told.records), goals = Replies.readGoals(told.goals);
  const texts = new Map(goals.map((goal) => [goal.name, goal.text]));
  Asking.completeTexts(texts, steps, session);
  const asked = { ask: async (line) => session.line(line), kept: { steps: { size: steps.length } } };
  const waits = await arcsAmong(asked, goals, []), clauses = Clauses.clausesOf(play.program);
  const run = { graph: Graph.graphOf(steps), goals, waits, shelf: Replies.readShelf(told.shelf), texts, clauses };
  const room = given.room === undefined ? 1100 : Number(given.room), naming = new Naming(play, run.graph);
  const { svg } = Picture.draw(run, { by: given.by, theme: given.theme, room, title: given.title === undefined ? play.query : given.title, legend: true, shown: (words) => naming.shown(words) });
  process.stdout.write(`${svg}\n`);
}

main().catch((error) => stop(error.message));
