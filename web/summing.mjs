// Steps of a run summed by what they did: how many reduced goals of each predicate, how many bound, computed, and came
// from outside. Pure.
import * as Lanes from "../front/run/lanes.mjs";

const OTHERS = [null, "=", ":=", "inputs", "inputs", "added goals"]; // by the kinds of steps that are no reductions
const MOST_NAMED = 8;

/** How many of the flagged steps did what: pairs of a name and a count, the most first, and of equal ones by name. */
function sums({ graph, clauses }, isIn) {
  const byClause = new Uint32Array(clauses.length + 1), byKind = new Uint32Array(OTHERS.length), counts = new Map();
  const add = (name, count) => { if (count > 0) counts.set(name, (counts.get(name) || 0) + count); };
  for (let index = 0; index < isIn.length; index++) {
    if (isIn[index] === 0) continue;
    if (graph.kinds.at(index) === 0) byClause[graph.clauses.at(index)] += 1;
    else byKind[graph.kinds.at(index)] += 1;
  }
  clauses.forEach(({ predicate }, at) => add(predicate, byClause[at + 1]));
  OTHERS.forEach((name, kind) => { if (name !== null) add(name, byKind[kind]); });
  return [...counts].sort(([one, first], [other, second]) => second - first || (one < other ? -1 : 1));
}

/** The same in words, as `part 6, sort 4, = 5`; predicates of one name have their arities. */
function words(run, isIn) {
  const all = sums(run, isIn), names = all.map(([name]) => Lanes.shortName(name));
  const isAlone = (name) => names.filter((other) => other === name).length === 1;
  const nameOf = (name, at) => (isAlone(names[at]) ? names[at] : name);
  const told = all.slice(0, MOST_NAMED).map(([name, count], at) => `${nameOf(name, at)} ${count.toLocaleString("en")}`);
  return `${told.join(", ")}${all.length > MOST_NAMED ? `, and ${all.length - MOST_NAMED} more` : ""}`;
}

export { sums, words };
