// The tokens of a text of Flat GHC, each with its place. Pure.
const FORM = /[ \t\r\n]+|%[^\n]*|[a-z]\w*|[A-Z_]\w*|\d+|:-|:=|=:=|=\\=|=<|>=|[^]/uy;

/** The kind of a word, by its first letter; a lone `:` or `\` is `wrong` as any other letter at which no token starts is. */
function kindOf(word) {
  const [first] = word;
  if (first >= "a" && first <= "z") return "name";
  if ((first >= "A" && first <= "Z") || first === "_") return "variable";
  if (first >= "0" && first <= "9") return "integer";
  if (" \t\r\n%".includes(first)) return "blank";
  return "=<>+-*/()[],|.".includes(first) || word === ":-" || word === ":=" ? "mark" : "wrong";
}

/** How many bytes of UTF-8 a letter has, of a pair of surrogates all four for the first. */
function bytesOf(code) {
  if (code < 0x80) return 1;
  if (code < 0x800) return 2;
  if (code >= 0xd800 && code < 0xdc00) return 4;
  return code >= 0xdc00 && code < 0xe000 ? 0 : 3;
}

// Follows lines through a text. The console counts a column in bytes, an editor in letters; both count from 1.
class Places {
  constructor(text) {
    this.text = text;
    this.line = 1;
    this.start = 0; // where the line begins
    this.at = 0;
    this.bytes = 0; // of the line, up to `at`
  }

  goTo(place) {
    for (; this.at < place; this.at += 1) {
      const code = this.text.charCodeAt(this.at);
      this.bytes += bytesOf(code);
      if (code !== 10) continue;
      this.line += 1;
      this.start = this.at + 1;
      this.bytes = 0;
    }
    return { line: this.line, column: this.bytes + 1, letter: place - this.start + 1 };
  }
}

/** A minus directly before digits is their sign, unless a variable, an integer or a closing bracket stands before it. */
function takesSign(tokens, start) {
  const minus = tokens.at(-1), before = tokens.at(-2);
  if (minus === undefined || minus.text !== "-" || minus.end !== start) return false;
  return before === undefined || !(before.kind === "variable" || before.kind === "integer" || before.text === ")");
}

/** The tokens of a text; the last one is its end. A letter at which no token starts is a token `wrong`. */
function tokensOf(text) {
  const tokens = [], places = new Places(text);
  FORM.lastIndex = 0;
  for (let found = FORM.exec(text); found !== null; found = FORM.exec(text)) {
    const [word] = found, kind = kindOf(word), start = found.index;
    if (kind === "blank") continue;
    if (kind === "integer" && takesSign(tokens, start)) {
      const minus = tokens.pop();
      tokens.push({ ...minus, kind, text: `-${word}`, end: start + word.length });
    } else tokens.push({ kind, text: word, ...places.goTo(start), at: start, end: start + word.length });
  }
  tokens.push({ kind: "end", text: "", ...places.goTo(text.length), at: text.length, end: text.length });
  return tokens;
}

const BRACKETS = new Map([["(", 1], ["[", 1], [")", -1], ["]", -1]]); // with what each does to how many are open
const OPERATORS = new Set(["+", "-", "*", "/", "mod"]), COMPARISONS = new Set(["<", ">", "=<", ">=", "=:=", "=\\="]);

const touches = (left, right) => left !== undefined && left.end === right?.at;

/** How many brackets are open after these tokens; a closing one takes one off. */
const depthOf = (tokens) => tokens.reduce((depth, { text }) => depth + (BRACKETS.get(text) ?? 0), 0);

/** The brackets that are open after these tokens, or others that have texts, the outermost first. */
function openBrackets(tokens, textOf = ({ text }) => text) {
  const open = [];
  for (const token of tokens) {
    const depth = BRACKETS.get(textOf(token));
    if (depth > 0) open.push(token);
    else if (depth < 0) open.pop();
  }
  return open;
}

/**
 * The place of the first bar, from a place on, that stands outside of all brackets opened there and before the next
 * full stop; -1 where there is none.
 */
function barOutside(tokens, start = 0) {
  let depth = 0;
  for (let place = start; place < tokens.length && tokens[place].text !== "."; place += 1) {
    if (depth === 0 && tokens[place].text === "|") return place;
    depth += depthOf([tokens[place]]);
  }
  return -1;
}

/** How many brackets stand open around each token; a bracket stands outside of itself. */
function levelsOf(tokens) {
  let level = 0;
  return tokens.map((token) => {
    const depth = depthOf([token]);
    level += depth;
    return depth > 0 ? level - 1 : level;
  });
}

/** Is each bracket closed that is opened in tokens, and opened that is closed? */
const isBalanced = (tokens) => depthOf(tokens) === 0 && levelsOf(tokens).every((level) => level >= 0);

/** The tokens around some, up to marks at a level of brackets or a bracket outside: from where to where. */
function rangeAt(tokens, around, level, marks) {
  const levels = levelsOf(tokens);
  const isWithin = (at) => levels[at] > level || (levels[at] === level && !marks.includes(tokens[at].text));
  let { from, to } = around;
  while (from > 0 && isWithin(from - 1)) from -= 1;
  while (to < tokens.length && isWithin(to)) to += 1;
  return { from, to };
}

/** The tokens of each clause, its full stop included; what stands after the last full stop is a clause of its own. */
function clausesOf(tokens) {
  const clauses = [[]];
  for (const token of tokens.filter(({ kind }) => kind !== "end")) {
    clauses.at(-1).push(token);
    if (token.text === ".") clauses.push([]);
  }
  return clauses.filter((clause) => clause.length > 0);
}

/** The place of the token that begins at a line and a column; -1 where none does. */
const placeOf = (tokens, at) => tokens.findIndex(({ line, column }) => line === at.line && column === at.column);

/** The first token of a comment of another language that begins up to a place, and does not end before it; or none. */
function commentAround(text, tokens, place) {
  const opens = (token, next) => token.text === "/" && next?.text === "*" && touches(token, next);
  const first = tokens.slice(0, place + 1).findLast((token, at) => opens(token, tokens[at + 1]));
  return first && !text.slice(first.end + 1, tokens[place].at).includes("*/") ? first : undefined;
}

/** Does an arrow, `->`, begin at a token, the one at a place of tokens? */
const isArrow = (token, place, tokens) => token.text === "-" && tokens[place + 1]?.text === ">";

/** The tokens of each clause of a text. */
const clausesIn = (text) => clausesOf(tokensOf(text));

/** The place of the last token of the call that begins at a place. */
function endOfCall(tokens, place) {
  if (tokens[place + 1]?.text !== "(") return place;
  let at = place + 1, depth = 1;
  while (depth > 0 && at < tokens.length - 1) {
    at += 1;
    depth += depthOf([tokens[at]]);
  }
  return at;
}

/** The place of the name of the call that ends before a place. */
const callBefore = (tokens, place) => tokens.slice(0, place).findLastIndex(({ text }, at) =>
  text !== ")" && endOfCall(tokens, at) === place - 1);

/** The tokens of the call that begins a clause, or stands at a place. */
const headOf = (clause, place = 0) => clause.slice(place, endOfCall(clause, place) + 1);

/** The parts of tokens between the commas that stand outside of all brackets. */
function partsOf(tokens) {
  const levels = levelsOf(tokens), isEnd = (place) => levels[place] === 0 && tokens[place].text === ",";
  const commas = [...tokens.keys()].filter(isEnd);
  return [...commas, tokens.length].map((end, place) => tokens.slice(place === 0 ? 0 : commas[place - 1] + 1, end));
}

/** The arguments of the call that begins a clause, or stands at a place, each as its tokens. */
function argumentsOf(clause, place = 0) {
  const call = headOf(clause, place), isClosed = depthOf(call) === 0;
  return call.length < 2 ? [] : partsOf(call.slice(2, isClosed ? -1 : undefined));
}

/** How many arguments the call has whose name is the token at a place. */
const arityAt = (tokens, place) => argumentsOf(tokens, place).length;

/** The predicate of the call at a place, as `append/3`. */
const predicateAt = (tokens, place) => `${tokens[place].text}/${arityAt(tokens, place)}`;

export {
  tokensOf, clausesOf, clausesIn, placeOf, commentAround, isArrow, arityAt, argumentsOf, predicateAt, headOf,
  callBefore, endOfCall, partsOf, levelsOf, rangeAt, isBalanced, depthOf, openBrackets, barOutside, touches,
  OPERATORS, COMPARISONS,
};
