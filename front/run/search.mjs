// Finds steps of a run: by a number, by the predicate of the goal that they reduced, or by a value that they bound or were given. Pure.
import * as Printed from "../text/printed.mjs";
import * as Reader from "../text/reader.mjs";

const PART = 512; // steps that are looked at between two places where the reader may pause
const escaped = (text) => text.replace(/[.*+?^${}()|[\]\\]/g, "\\$&");

/** The clauses of the predicates of a name such as `sift` or `sift/2`, by their numbers. */
function clausesOf(clauses, name) {
  return new Set(clauses.flatMap(({ predicate }, index) => (Printed.isNamed(predicate, name) ? [index + 1] : [])));
}

/** A text as it stands within a term, and not as a part of a longer name or number. */
const asValue = (text) => new RegExp(`(?<![A-Za-z0-9_])${escaped(text.replace(/ +/g, ""))}(?![A-Za-z0-9_])`);

/** What of a step is a value: what it bound, or was given. */
function valuesOf(step) {
  const bound = step.binds.map((binding) => binding.term).join(" ");
  return step.kind === "input" || step.kind === "ask" ? `${step.act.replace(/ +/g, "")} ${bound}` : bound;
}

/** Finds all steps that are meant, by their indexes in recorded order, and yields how many were looked at, each time that it may pause. */
function* find(run, text, hits) {
  const { graph, clauses } = run, wanted = text.trim(), numbers = clausesOf(clauses, wanted), value = asValue(wanted);
  const isNumber = /^\d+$/.test(wanted) ? Number(wanted) : null, isVariable = Reader.isState(wanted);
  for (let index = 0; wanted !== "" && index < graph.count; index++) {
    if (index % PART === 0) yield index;
    const told = graph.told[index], isHit = () => {
      if (isNumber !== null && graph.numbers.at(index) === isNumber) return true;
      if (numbers.size > 0) return numbers.has(graph.clauses.at(index)) && graph.kinds.at(index) === 0;
      if (typeof told === "string" && !told.includes(wanted.replace(/ +/g, "")) && graph.kinds.at(index) < 3) return false;
      const step = graph.stepAt(index);
      return isVariable ? step.binds.some((binding) => binding.variable === wanted) : value.test(valuesOf(step));
    };
    if (isHit()) hits.push(index);
  }
}

export { find };
