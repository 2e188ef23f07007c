// What the terminal does where a value is doubted. For `blame` it asks, hears the answers, and gives those of
// predicates that are trusted. `choices X` tells what X would be, had a step gone by another clause; after a run it is
// told whether one could.
import { meant, usageOf } from "../front/protocol/commands.mjs";
import * as Replies from "../front/protocol/replies.mjs";
import { NONE_FOUND, freeLines, linesOf, otherChoice } from "../front/run/other_choices.mjs";
import { clauseWords } from "../front/run/blame_words.mjs";
import * as Own from "../front/run/own.mjs";
import { plural } from "../front/run/reasons.mjs";
import { notesAfter } from "../front/run/telling.mjs";
import { freeSteps, tryingOf } from "../front/session/trying.mjs";
import { part } from "./part.mjs";

const NO_MEMORY = "memory was refused for the history, so that no other choice can be tried";

const Judging = part({
  /** Alone it asks the open question again. */
  on_blame({ words }, typed) {
    return this.judge("blame", words, typed);
  },

  on_trust({ words }) {
    return this.judge("trust", words, "");
  },

  /** Tells what `blame`, `trust` or an answer means, and asks what is to be asked then. */
  async judge(name, words, typed) {
    const { told, line: given } = this.blaming.asked(name, words);
    this.note(...told);
    if (given === undefined) return;
    const { line, reply, notes } = await this.blaming.ask(given, () => this.isInterrupted);
    this.note(...notes);
    this.echo(line, typed);
    await this.show(reply);
    this.note(...await this.blaming.wordsAfter(line, reply));
  },

  async on_choices({ words: [word, ...more] }) {
    if (word === undefined || more.length > 0 || /^\d/.test(word)) return this.note(usageOf("choices"));
    const { session } = this, name = Own.signOf(session, word), meaning = meant("explain", name);
    const explained = await session.ask(meaning.line);
    if (Replies.isRefused(explained)) {
      this.out(explained[0]);
      return this.noteAll(await notesAfter(session, meaning, explained));
    }
    const trying = await tryingOf(session);
    return trying === undefined ? this.note(NO_MEMORY) : this.tryChoices(trying, name, explained);
  },

  async tryChoices(trying, name, explained) {
    this.trying = trying;
    try {
      const choices = await trying.choices(name, explained), outcomes = [];
      for await (const outcome of trying.outcomes(name, choices)) outcomes.push(outcome);
      if (!this.session.variables.includes(name)) this.note((await this.session.look()).labelOf(name));
      await this.noteAll([...linesOf(outcomes), ...this.bothClauses(otherChoice(outcomes))]);
      this.tellUntried(choices.length, outcomes.filter(({ choice }) => choice !== undefined).length);
    } finally {
      this.trying = undefined;
    }
  },

  /** The clause that a step took, and the one that it could have taken, with their texts. */
  bothClauses(choice) {
    if (choice === undefined) return [];
    const { step, goal, clause, other } = choice, words = (number) => clauseWords(this.session, number);
    return [`step ${step} took ${goal} by ${words(clause)}`, `it could have gone by ${words(other)}`];
  },

  /** Tells how many choices there were, where that is not plain, and why some were not tried. */
  tellUntried(count, tried) {
    const left = plural(count - tried, "choice");
    if (this.isInterrupted) this.note(`ended by ^C: ${tried} of ${plural(count, "choice")} tried; the session stands`);
    else if (count === 0) this.note(NONE_FOUND);
    else if (count > tried) this.note(`.. ${left} more not tried ..`);
  },

  /** After a run that has come to its end: how many steps could have gone by another clause. */
  async tellFree(stop) {
    if (!/^stopped (quiet|clash)/.test(stop) || this.isInterrupted) return;
    this.note(...freeLines(await freeSteps(this.session)));
  },
});

export default Judging;
