// The words of ghcdb's command line, as far as those must know them who stand before the program. Pure.
const WITH_VALUE = ["--query", "--load", "--schedule", "--workers"];

/** The parts of a command line: options with their values, and lone words, as values; each with its own words, and the place of the first. */
function partsOf(words, options = WITH_VALUE) {
  const parts = [];
  for (let at = 0; at < words.length; at += parts.at(-1).own.length) {
    const word = words[at], sign = word.indexOf("="), name = sign > 0 && word.startsWith("--") ? word.slice(0, sign) : word;
    if (!options.includes(name)) parts.push({ name: undefined, value: word, at, own: [word] });
    else if (name !== word) parts.push({ name, value: word.slice(sign + 1), at, own: [word] });
    else parts.push({ name, value: words[at + 1], at, own: words.slice(at, at + 2) });
  }
  return parts;
}

/** The words without some options. */
const without = (words, options) => partsOf(words).filter(({ name }) => !options.includes(name)).flatMap(({ own }) => own);

/**
 * What the words name.
 * @param {readonly string[]} words
 * @returns {import("../types").WordsRead}
 */
function readWords(words) {
  const given = { file: undefined, asksOnly: false };
  for (const { name, value, at } of partsOf(words)) {
    if (name !== undefined) given[name.slice(2)] = value;
    else if (["--help", "-h", "--version", "-V"].includes(value)) given.asksOnly = true;
    else if (given.file === undefined) Object.assign(given, { file: value, fileAt: at });
  }
  return given;
}

/** Do the words ask for a session, in which lines are typed? */
const isSession = (given) => !given.asksOnly && given.file !== undefined && given.query !== undefined && given.schedule === undefined;

/** The words with the program in another file. */
const wordsOfProgram = (words, program) => words.map((word, at) => (at === readWords(words).fileAt ? program : word));

/** The words with which the same session goes on from a history, and of a program, in other files. */
const wordsFrom = (words, { history, program }) => [...without(wordsOfProgram(words, program), ["--load"]), "--load", history];

/**
 * What a run asks for that gives its answers alone: whether it is one, the values that are expected, how many steps it
 * may take, and the words that are left for the program. A value that is lacking is undefined.
 */
function readRun(words) {
  const own = ["--expect", "--steps"], parts = partsOf(words, [...WITH_VALUE, ...own]);
  const isRun = ({ name, value }) => name === undefined && value === "--run";
  const [expected, steps] = own.map((one) => parts.filter(({ name }) => name === one).map(({ value }) => value));
  const left = parts.filter((part) => !isRun(part) && !own.includes(part.name)).flatMap((part) => part.own);
  return { isRun: parts.some(isRun), expected, steps, words: left };
}

/** The words with another query: a history of the query before is none of it. */
const wordsOfQuery = (words, query) => [...without(words, ["--load", "--query"]), `--query=${query}`];

export { readRun, wordsOfQuery, wordsOfProgram, readWords, isSession, wordsFrom };
