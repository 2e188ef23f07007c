// Holds what `stuck` and `whynot` tell of programs that hang against the wrong clause: node tests/hanging.mjs [N]
//
// The right programs of tests/mistakes get one mistake each, made by machine and the same each time: a variable of a
// clause exchanged for another one, a goal of a body dropped, two arguments of a goal exchanged, a number one larger.
// Those count whose run ends quietly with goals that wait; of each program as many, 177 in all, or N. The wrong clause
// is told where a goal that is named was made by it or is of its predicate, or a step by it let go of something. The
// program is the page's. Programs of which nothing tells it are shown; the last line counts.
import fs from "node:fs";
import os from "node:os";
import path from "node:path";
import { fileURLToPath } from "node:url";
import * as Printed from "../front/text/printed.mjs";
import * as Reader from "../front/text/reader.mjs";
import * as Replies from "../front/protocol/replies.mjs";
import * as Tokens from "../front/text/tokens.mjs";
import * as WhyNotLines from "../front/protocol/why_not_lines.mjs";
import * as Own from "../front/run/own.mjs";
import { engineOfPage } from "../front/session/engine_of_page.mjs";
import { queryOf } from "../front/text/query_comment.mjs";
import { Session } from "../front/session/session.mjs";

const MISTAKES = fileURLToPath(new URL("mistakes/", import.meta.url)), MOST_STEPS = 5000;
const { engine } = await engineOfPage();

/** Numbers below others, by chance, the same each time. */
function chance(seed) {
  let state = seed;
  return (most) => {
    state = (Math.imul(state, 1664525) + 1013904223) >>> 0;
    return Math.floor((state / 2 ** 32) * most);
  };
}

/** A clause's text with the tokens from one to another replaced. */
const replaced = (text, first, last, by) => text.slice(0, first.at) + by + text.slice(last.end);

/** The texts with a token exchanged: a variable for another one of the clause, a number for the next one. */
function exchanges(text, tokens) {
  const variables = tokens.filter(({ kind, text: name }) => kind === "variable" && name !== "_");
  const names = [...new Set(variables.map((token) => token.text))];
  return tokens.flatMap((token) => {
    if (token.kind === "integer") return [replaced(text, token, token, String(BigInt(token.text) + 1n))];
    if (!names.includes(token.text)) return [];
    return names.filter((name) => name !== token.text).map((name) => replaced(text, token, token, name));
  });
}

/** The tokens from one place on, up to a full stop, in parts between commas at the depth of brackets that is given. */
function partsOf(tokens, from, depth) {
  const parts = [[]];
  let open = depth;
  for (const token of tokens.slice(from)) {
    const before = open;
    open += Tokens.depthOf([token]);
    if (open < depth || (depth === 0 && open === 0 && token.text === ".")) break;
    if (before === depth && open === depth && token.text === ",") parts.push([]);
    else parts.at(-1).push(token);
  }
  return parts;
}

/** The texts with a goal of the body dropped, or two neighbouring arguments of one exchanged. */
function changesOfBody(text, tokens) {
  const bar = tokens.findIndex((token, at) => token.text === "|" && Tokens.depthOf(tokens.slice(0, at)) === 0);
  const goals = partsOf(tokens, bar + 1, 0);
  return goals.flatMap((goal) => {
    const others = goals.filter((other) => other !== goal).map((other) => text.slice(other[0].at, other.at(-1).end));
    const dropped = replaced(text, goals[0][0], goals.at(-1).at(-1), others.join(", ") || "true");
    const terms = goal[1]?.text === "(" ? partsOf(goal, 2, 0).filter((term) => term.length > 0) : [];
    const swapped = terms.slice(1).map((term, at) => {
      const [one, other] = [terms[at], term].map((part) => text.slice(part[0].at, part.at(-1).end));
      return replaced(text, terms[at][0], term.at(-1), `${other}, ${one}`);
    });
    return [dropped, ...swapped];
  });
}

/** All programs with one mistake, with the number of the wrong clause. */
function mistakesIn(program) {
  const clauses = Reader.readProgram(program), texts = clauses.map(({ text }) => text);
  return clauses.flatMap(({ number, text }) => {
    const tokens = Tokens.tokensOf(text).filter(({ kind }) => kind !== "end");
    const wrong = new Set([...exchanges(text, tokens), ...changesOfBody(text, tokens)]);
    wrong.delete(text);
    return [...wrong].map((one) => ({ number, text: texts.with(number - 1, one).join("\n") }));
  });
}

// A session of the page's program, without a thread of its own.
class Near extends Session {
  open() {
    const session = engine.open({ program: this.text, query: this.given.query });
    return { ask: async (line) => session.line(String(line)), end: async () => {} };
  }
}

/** Does a run of the program end quietly with goals that wait, and none that has failed? */
function hangs({ text }, query) {
  const session = engine.open({ program: `${text}\n`, query });
  if (session.refused || session.line(`leap ${MOST_STEPS}`).at(-1) !== "stopped quiet") return false;
  const goals = Replies.readGoals(session.line("goals"));
  return goals.length > 0 && goals.every(({ status }) => status === "waits");
}

/** Which of the goals and steps that are told lead to the wrong clause. */
function pointer(session, goals, number) {
  const { predicate } = session.clauses[number - 1], byName = new Map(goals.map((goal) => [goal.name, goal]));
  const isBy = (step) => session.kept.steps.get(step)?.clause === number;
  const isOf = (goal) => Printed.predicateOf(byName.get(goal)?.text ?? "") === predicate;
  const isMade = (goal) => isBy(Number.parseInt(goal, 10)) || isOf(goal);
  return { isMade, isLost: (step) => isBy(step) || isMade(session.kept.steps.get(step).goal) };
}

/** Whether the wrong clause is told: by goals that have what is waited for, by lost lines, and by `stuck`. */
async function toldOf(folder, { text, number }, query) {
  const file = path.join(folder, "p.ghc");
  fs.writeFileSync(file, `${text}\n`);
  const session = new Near([file, "--query", query]);
  await session.begin();
  await session.ask(`leap ${MOST_STEPS}`);
  const goals = await session.goals(), { isMade, isLost } = pointer(session, goals, number);
  const told = { held: false, lost: false };
  for (const { name } of goals) {
    const { holders, lost } = WhyNotLines.read(await session.ask(`whynot ${name}`));
    told.held ||= holders.some(({ goal }) => isMade(goal));
    told.lost ||= lost.some((step) => isLost(step.number));
  }
  const lines = (await Own.stuck(session)).join("\n"), named = lines.match(/\b\d+\.\d+\b/g) ?? [];
  const steps = [...lines.matchAll(/\bstep (\d+) let it go/g)].map(([, step]) => Number(step));
  const makers = [...lines.matchAll(/; clause (\d+) \(line \d+\) made it/g)].map(([, clause]) => Number(clause));
  const stuck = named.some(isMade) || steps.some(isLost), made = stuck || makers.includes(number);
  return { ...told, whynot: told.held || told.lost, stuck, made, lines };
}

const textOf = (name) => fs.readFileSync(path.join(MISTAKES, name), "utf8");

/** So many programs that hang: of each right one in turn the next. */
function hangingOnes(most) {
  const names = fs.readdirSync(MISTAKES).filter((name) => name.endsWith(".ok.ghc"));
  const left = names.map((name, seed) => {
    const query = queryOf(textOf(name.replace(".ok.", "."))), below = chance(seed + 1);
    const all = mistakesIn(textOf(name)).map((mistake) => ({ name, query, ...mistake, order: below(2 ** 30) }));
    return all.sort((one, other) => one.order - other.order);
  });
  const found = [];
  while (found.length < most && left.some((all) => all.length > 0)) {
    for (const all of left) {
      let mistake = all.shift();
      while (mistake !== undefined && !hangs(mistake, mistake.query)) mistake = all.shift();
      if (mistake !== undefined && found.length < most) found.push(mistake);
    }
  }
  return found;
}

const folder = fs.mkdtempSync(path.join(os.tmpdir(), "ghcdb-test-"));
const found = hangingOnes(Number(process.argv[2] ?? 177));
const counts = { held: 0, lost: 0, whynot: 0, stuck: 0, made: 0 };
for (const mistake of found) {
  const told = await toldOf(folder, mistake, mistake.query);
  for (const what of Object.keys(counts)) counts[what] += told[what] ? 1 : 0;
  const wrong = Reader.readProgram(mistake.text)[mistake.number - 1].text.replace(/\s+/g, " ");
  if (!told.made) console.log(`${mistake.name}: ${wrong}\n  ${told.lines.replaceAll("\n", "\n  ")}`);
}
fs.rmSync(folder, { recursive: true });
const { held, lost, whynot, stuck, made } = counts;
console.log(`of ${found.length} programs: by goals ${held}, by lost lines ${lost}, by whynot ${whynot}; `
  + `by stuck ${stuck}, and by who made it ${made}`);
