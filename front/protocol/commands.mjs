// What a line typed at a terminal means, and what helps with it. Pure.
import CommandsTable from "./commands_table.mjs";
import Refusals from "./refusals.mjs";
import { nearest } from "../text/nearest.mjs";

// The console's commands and the terminal's own, each with what a terminal adds.
const COMMANDS = CommandsTable.map(({ tells, more, ...command }) => ({
  ...command, tells: more === "" ? tells : `${tells}; ${more}`, isOwn: command.effect === "front",
}));
const NAMES = COMMANDS.map(({ name }) => name);
const byName = new Map(COMMANDS.map((command) => [command.name, command]));

// What people type who know other debuggers. A beginning that fits one command alone needs no line here.
const OTHER_NAMES = new Map(Object.entries({
  s: "step", n: "step", next: "step", stepi: "step", r: "leap", run: "leap", c: "leap", cont: "leap", continue: "leap", go: "leap", j: "leap",
  finish: "skip", p: "show", print: "show", inspect: "show", x: "show", l: "list", ls: "list", listing: "list", w: "goals", where: "goals", bt: "goals",
  backtrace: "goals", info: "goals", threads: "goals", b: "spy", break: "spy", breakpoint: "spy", tbreak: "spy", delete: "nospy", clear: "nospy", advance: "until",
  u: "undo", "reverse-step": "back", prev: "back", previous: "back", retry: "back", q: "quit", exit: "quit", bye: "quit", halt: "quit", h: "help",
  "?": "help", man: "help", commands: "help", deadlock: "stuck", history: "records", trace: "records", log: "records", reset: "restart",
  write: "save", call: "ask", rollback: "roll", rewind: "roll",
}));

const VARIABLE = /^[A-Z_]\w*$/;
// After these stands a text, which is left as it was typed.
const FREE = new Set(COMMANDS.filter(({ form, tells }) => /\b(GOALS|TERM|FILE)\b/.test(`${form} ${tells}`)).map(({ name }) => name));

/** The command that a word means; undefined where it means none. A beginning is written in small letters. */
function commandOf(word) {
  const name = word.toLowerCase();
  if (byName.has(name)) return name;
  if (OTHER_NAMES.has(name)) return OTHER_NAMES.get(name);
  const begun = NAMES.filter((other) => other.startsWith(word));
  return begun.length === 1 ? begun[0] : undefined;
}

/** A word without the marks that people put around names and numbers. */
const bare = (word) => word.replace(/^[("']+/, "").replace(/(?<![.,;)"'])[.,;)"']+$/, "");

/** Does a word alone ask for a variable's value? One of the query does; another one where it means no command. */
function isVariable(word, variables) {
  return variables.includes(word) || (VARIABLE.test(word) && (word.length === 1 || commandOf(word) === undefined));
}

const CALLED = /^([a-z]+)\((.*)\)\.?$/;

/** A command that is written like a call, as `step(1.2)`, as it is written elsewhere; any other line as it is. */
function uncalled(text) {
  const [, name, given] = CALLED.exec(text) ?? [];
  return byName.has(name) && !FREE.has(name) ? `${name} ${given}` : text;
}

/**
 * What a typed line means: a command's name and words, the text after the name as it was typed, and the line of the console that says so.
 * `variables` are the query's.
 */
function meaningOf(typed, variables = []) {
  const text = uncalled(typed.trim()), words = text.split(/[ \t]+/);
  const first = byName.has(words[0]) ? words[0] : bare(words[0]) || words[0];
  if (words.length === 1 && isVariable(first, variables)) return { name: "show", words: [first], rest: first, line: `show ${first}` };
  const name = words.length > 1 && variables.includes(first) ? undefined : commandOf(first);
  if (name === undefined) return { name: undefined, words: words.slice(1), line: typed };
  const rest = text.slice(words[0].length).trim();
  if (FREE.has(name)) return { name, words: rest === "" ? [] : rest.split(/ +/), rest, line: rest === "" ? name : `${name} ${rest}` };
  const kept = words.slice(1).flatMap((word) => word.split(",")).map(bare).filter((word) => word !== "");
  return { name, words: kept, rest, line: [name, ...kept].join(" ") };
}

/** What a line means that has a command's name and words. */
const meant = (name, ...words) => ({ name, words, line: [name, ...words].join(" ") });

const widest = Math.max(...COMMANDS.map(({ form }) => form.length));
const helpLine = ({ form, tells }) => `${form.padEnd(widest)}  ${tells}`;
const usageOf = (name) => `usage: ${helpLine(byName.get(name))}`;

const FOREIGN = /[^\x00-\x7f]/u;

/** What helps where the console takes a command's line for none. */
function whyNoCommand({ name, line }) {
  const [letter] = FOREIGN.exec(line) ?? [], ascii = `a line has the letters of ASCII alone, and ${letter} is none of them`;
  return [...(letter === undefined ? [] : [ascii]), usageOf(name)];
}

// Words for what is done otherwise here.
const ELSEWHERE = {
  load: "a history is loaded at the start: ./ghcdb FILE --query GOALS --load HISTORY", open: "a program is named at the start: ./ghcdb FILE --query GOALS",
  edit: "edit the file elsewhere, then reload keeps the steps, and restart begins anew", set: "ask X = TERM binds a variable that is unbound", jump: "roll N goes back to before step N",
  cut: "there is no cut: step G C takes goal G by clause C", fail: "there is no fail: roll N takes a step back",
  y: "y and n answer a question of blame: blame X asks whose clause made X wrong",
};

const GOAL = /^[A-Za-z_]\w*\s*(\(|:?=)/;

/** What a line that is no command may be meant to be, in words. */
function suggestionFor(typed) {
  const text = typed.trim().replace(/^\?-\s*/, "");
  return GOAL.test(text) ? `no such command; ask adds goals: ask ${text.replace(/\.$/, "")}` : suggestion(text.split(/\s+/)[0]);
}

// Words of the console's replies: G is a goal, N a step's number, V a variable. Ports stand in capitals.
const REPLIES = new Map(Object.entries({
  REDU: "N G ACT: step N took goal G; ACT is by C for clause C, eq for =, is for :=, in T or end for an input",
  CALL: "G TEXT: the step made goal G", RESU: "G: the step bound what goal G waited for",
  SUSP: "G V,..: goal G waits until one of these variables is bound", FAIL: "G F10: goal G has failed, as help F10 tells",
  reads: "V,..: the bound variables at which the step looked", binds: "V=TERM;..: what the step bound",
  makes: "G,..: the goals that the step made",
  undone: "N,..: these steps were taken back, in the record's order", kept: "K: so many steps are left",
  stopped: "quiet: no goal is ready; clash G: goal G has failed; spied G: goal G, of a spied predicate, is next; limit: K steps were made; " +
    "full: no step has room; memory: memory was refused",
}));

/** Which word was meant, in words. */
function suggestion(word) {
  if (REPLIES.has(word)) return `${word}: no such command; it stands in replies: help ${word}`;
  if (Object.hasOwn(ELSEWHERE, word)) return `${word}: no such command; ${ELSEWHERE[word]}`;
  const other = nearest(word, [...NAMES, ...OTHER_NAMES.keys()].filter((known) => known.length > 2));
  const name = other && (OTHER_NAMES.get(other) ?? other);
  return `${word}: no such command${name === undefined ? "" : `; ${name}?`}  (help lists them)`;
}

const LETTERS = "A beginning of a word will do where it is clear; G is a goal, as 1.2, N a step's number, X a variable, " +
  "F/N a predicate, as price/2. `all` as the last word shows a listing, or a long value, whole.";

/** What follows a command, as commands.table tells. */
const followsOf = (name) => byName.get(name)?.follows ?? "";

/** The lines of help: of all commands, of one, of a word of the replies, or of a refusal. */
function helpLines(words) {
  const [word] = words, name = word && commandOf(word), refusal = word?.toUpperCase();
  if (REPLIES.has(word)) return [`${word} ${REPLIES.get(word)}`];
  if (Object.hasOwn(Refusals, refusal)) return [`${refusal}: ${Refusals[refusal]}`];
  if (name !== undefined) return [helpLine(byName.get(name))];
  if (word !== undefined) return [suggestion(word)];
  return [...COMMANDS.map(helpLine), LETTERS];
}

export { COMMANDS, NAMES, commandOf, followsOf, meaningOf, meant, helpLines, usageOf, whyNoCommand, suggestionFor };
