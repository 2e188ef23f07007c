// Goals as the console prints them, with the names that program and query give to variables: for people, and as a
// query. Pure.
import * as Printed from "../front/text/printed.mjs";
import * as Reader from "../front/text/reader.mjs";
import Run from "../front/run/run.mjs";

const MOST_LETTERS = 200000; // of a program and a query that are read for their names
const SUBSCRIPT = "₀".codePointAt(0);
const VARIABLE = /\b_\d+_\d+\b/g, PARTED = /(\b_\d+_\d+\b)/, VARIABLE_ALONE = /^_\d+_\d+$/;

const subscript = (number) => [...String(number)].map((digit) => String.fromCodePoint(SUBSCRIPT + Number(digit))).join("");

/** Of a graph's steps, by their numbers, what a name needs: the clause. No step is read for it. */
function stepsOf(graph) {
  const stepAt = (at) => (at < 0 ? undefined : { clause: graph.clauses.at(at) });
  return { get: (number) => stepAt(graph.indexOf(number)) };
}

/** What program and query tell of names; null where they are too long, or no texts of the language. */
function readTexts({ program, query }, graph) {
  if (program.length + query.length > MOST_LETTERS) return null;
  try {
    return new Run(Reader.readProgram(program), query, { steps: stepsOf(graph), texts: new Map(), changes: 0 });
  } catch {
    return null;
  }
}

/** The names for the variables of a run: of a program that is long or refused there are none. */
class Naming {
  constructor(given, graph) {
    this.run = readTexts(given, graph);
  }

  /** The name that the text gives to a variable; undefined where it gives none. */
  nameOf(variable) {
    return this.run === null ? undefined : this.run.nameOf(variable);
  }

  /**
   * The same for people: of a clause's variable with the number of the step below the line, so that no two are alike.
   */
  shownName(variable) {
    const name = this.nameOf(variable), [step] = Printed.numbersOf(variable);
    if (name === undefined) return variable;
    return step === 0 ? name : `${name}${subscript(step)}`;
  }

  /** A text with the names that people know. */
  shown(text) {
    return text.replace(VARIABLE, (variable) => this.shownName(variable));
  }

  /** A text taken apart: texts, and between them each variable that has a name, with that. */
  partsOf(text) {
    /** @type {(string | { variable: string, name: string })[]} */
    const parts = [""];
    for (const part of text.split(PARTED)) {
      const name = VARIABLE_ALONE.test(part) ? this.shownName(part) : part;
      if (name !== part) parts.push({ variable: part, name }, "");
      else parts.push(parts.pop() + part);
    }
    return parts.filter((part) => part !== "");
  }

  /** The variable of a name as people know it; undefined where no step here has it. */
  variableOf(shown) {
    const [, name, below] = /^([A-Z_]\w*?)([₀-₉]*)$/.exec(shown) || [];
    if (this.run === null || name === undefined) return undefined;
    const step = Number([...below].map((digit) => digit.codePointAt(0) - SUBSCRIPT).join(""));
    const { clause } = this.run.kept.steps.get(step) || { clause: 0 };
    const names = step === 0 ? this.run.query.variables : this.run.clauses[clause - 1]?.news || [];
    const place = names.indexOf(name);
    return place < 0 ? undefined : `_${step}_${place + 1}`;
  }

  /**
   * A goal's text as a query: no `_1_2` may stand there, so each variable has a name of its own, the text's where no
   * other has it.
   */
  asQuery(text) {
    const names = new Map();
    for (const variable of Printed.variablesIn(text)) names.set(variable, this.freshName(variable, new Set(names.values())));
    return text.replace(VARIABLE, (variable) => names.get(variable));
  }

  /** A name for a variable in a query, where some are taken. */
  freshName(variable, taken) {
    const told = this.nameOf(variable), name = told !== undefined && /^[A-Z]/.test(told) ? told : "V";
    let fresh = name;
    for (let count = 2; taken.has(fresh); count++) fresh = `${name}${count}`;
    return fresh;
  }
}

export default Naming;
