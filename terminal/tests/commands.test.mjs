// What the terminal says of words that are no commands: words of replies are explained, others are not guessed wildly.
import assert from "node:assert";
import test from "node:test";
import { helpLines, suggestionFor, usageOf, whyNoCommand } from "../../front/protocol/commands.mjs";

test("help explains the words of the console's replies", () => {
  const told = {
    REDU: "N G ACT: step N took goal G; ACT is by C for clause C, eq for =, is for :=, in T or end for an input",
    CALL: "G TEXT: the step made goal G", RESU: "G: the step bound what goal G waited for",
    SUSP: "G V,..: goal G waits until one of these variables is bound",
    FAIL: "G F10: goal G has failed, as help F10 tells",
    reads: "V,..: the bound variables at which the step looked", binds: "V=TERM;..: what the step bound",
    makes: "G,..: the goals that the step made",
    undone: "N,..: these steps were taken back, in the record's order", kept: "K: so many steps are left",
    stopped: "quiet: no goal is ready; clash G: goal G has failed; spied G: goal G, of a spied predicate, is next; limit: K steps were made; " +
      "full: no step has room; memory: memory was refused",
  };
  for (const [word, meaning] of Object.entries(told)) assert.deepStrictEqual(helpLines([word]), [`${word} ${meaning}`]);
  assert.strictEqual(suggestionFor("REDU 1 0.1 by 1"), "REDU: no such command; it stands in replies: help REDU");
  assert.deepStrictEqual(helpLines(["call"]), helpLines(["ask"]));
  assert.deepStrictEqual(helpLines(["f10"]), ["F10: no clause can ever be selected for the goal; clauses G tells why; then roll the step that led there"]);
});

test("a word is taken for another one only where few of its letters differ", () => {
  const meant = { undoo: "undo", stp: "step", explian: "explain", recrods: "records", brekpoint: "spy", redu: "redo", breakpiont: "spy" };
  for (const [word, name] of Object.entries(meant)) {
    assert.deepStrictEqual(helpLines([word]), [`${word}: no such command; ${name}?  (help lists them)`]);
  }
  for (const word of ["notrace", "rn", "rum", "spent", "constructor", "toString", "bckpont", "reverstps", "explicitly"]) {
    assert.deepStrictEqual(helpLines([word]), [`${word}: no such command  (help lists them)`]);
    assert.strictEqual(suggestionFor(word), `${word}: no such command  (help lists them)`);
  }
});

test("a letter past ASCII is told as why a line is none of the console's", () => {
  const ascii = (letter) => `a line has the letters of ASCII alone, and ${letter} is none of them`;
  assert.deepStrictEqual(whyNoCommand({ name: "ask", line: "ask X = äöü" }), [ascii("ä"), usageOf("ask")]);
  assert.deepStrictEqual(whyNoCommand({ name: "in", line: "in 1 😀" }), [ascii("😀"), usageOf("in")]);
  assert.deepStrictEqual(whyNoCommand({ name: "ask", line: "ask" }), [usageOf("ask")]);
});
