// What the terminal does for `spy` and `nospy`: predicates without the number of their arguments, patterns of goals,
// and which are spied.
import { meant, usageOf } from "../front/protocol/commands.mjs";
import * as Replies from "../front/protocol/replies.mjs";
import { repeatedIn, whyRepeated } from "../front/run/patterns.mjs";
import { predicateOf } from "../front/text/print.mjs";
import * as Reader from "../front/text/reader.mjs";
import { part } from "./part.mjs";

const IS_PATTERN = /\(/;
const NONE = "nothing is spied; spy F/N stops runs at calls of F/N, spy F(T,..) at goals that fit that";

/** The pattern that a text is; of another text why it is none. */
function readPattern(text, name) {
  const pattern = Reader.termIn(text), [repeated] = pattern === undefined ? [] : repeatedIn(pattern);
  if (predicateOf(pattern) === undefined) return { why: usageOf(name) };
  return repeated === undefined ? { pattern } : { why: whyRepeated(repeated) };
}

const Spying = part({
  /** The predicates that are spied, as a history of the session tells them. */
  async spied() {
    const saved = await this.session.ask("save");
    return Replies.isRefused(saved) ? [] : Replies.spiesIn(saved);
  },

  /** A predicate with the patterns to which its goals are narrowed. */
  spiedLine(predicate) {
    const texts = this.patterns.textsOf(predicate);
    return texts.length === 0 ? predicate : `${predicate}, at goals that fit ${texts.join(" or ")}`;
  },

  async tellSpied() {
    const spied = await this.spied();
    return this.noteAll(spied.length === 0 ? [NONE] : spied.map((predicate) => this.spiedLine(predicate)));
  },

  /** The predicates of the program that a word names without the number of their arguments. */
  predicatesOf([word, more]) {
    return this.session.predicates.filter((predicate) => more === undefined && predicate.split("/")[0] === word);
  },

  async on_spy({ name, words, rest }, typed) {
    const text = rest.replace(/\.$/, ""), isSpy = name === "spy";
    if (text === "") return isSpy ? this.tellSpied() : this.spyNothing();
    if (IS_PATTERN.test(text)) return isSpy ? this.spyPattern(text) : this.forgetPattern(text);
    const named = this.predicatesOf(words);
    for (const predicate of named.length > 0 ? named : words) this.patterns.forget(predicate);
    if (!isSpy) this.stoppedAt = undefined;
    await this.sendAll(named.map((predicate) => meant(name, predicate)), typed);
    return named.length > 0;
  },

  on_nospy(meaning, typed) {
    return this.on_spy(meaning, typed);
  },

  /** Narrows what is spied to goals that fit a pattern. */
  async spyPattern(text) {
    const { pattern, why } = readPattern(text, "spy"), predicate = predicateOf(pattern);
    if (why !== undefined) return this.note(why);
    await this.send(meant("spy", predicate));
    if (!this.session.predicates.includes(predicate)) return undefined;
    this.patterns.add(pattern);
    return this.note(`runs stop at calls of ${this.spiedLine(predicate)}`);
  },

  async spyNothing() {
    const spied = await this.spied();
    if (spied.length === 0) return this.note(NONE);
    spied.forEach((predicate) => this.patterns.forget(predicate));
    await this.sendAll(spied.map((predicate) => meant("nospy", predicate)));
    this.stoppedAt = undefined;
  },

  /** Takes a pattern away; with the last one the predicate is spied no longer. */
  async forgetPattern(text) {
    const { pattern, why } = readPattern(text, "nospy"), predicate = predicateOf(pattern);
    if (why !== undefined) return this.note(why);
    const wasThere = this.patterns.remove(pattern), left = this.patterns.textsOf(predicate);
    if (!wasThere) return this.note(`${text} is no pattern of what is spied; spy alone lists them`);
    if (left.length > 0) return this.note(`runs stop at calls of ${this.spiedLine(predicate)}`);
    this.stoppedAt = undefined;
    return this.send(meant("nospy", predicate));
  },
});

export default Spying;
