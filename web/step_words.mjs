// What a step did and what it depends on, in words for people: the console has shorter ones. Pure.
const WORDS = {
  reduce: ({ goal, clause }) => `goal ${goal} was reduced by clause ${clause}`,
  unify: ({ goal }) => `goal ${goal} made two things equal`,
  assign: ({ goal }) => `goal ${goal} computed a number`,
  input: ({ goal, act }) => `stream ${goal} was given ${act.slice(3)}`,
  close: ({ goal }) => `stream ${goal} was ended`,
  ask: ({ act }) => `goals were added: ${act.slice(4)}`,
};
const CAUSES = {
  made: () => "made its goal",
  read: ({ variables, woke }) => `bound ${variables[0]}, which it read${woke ? ", and woke it" : ""}`,
  named: ({ variables }) => `made ${variables[0]}, which it names`,
};

/** What a step did, kept or taken back. */
const of = (step) => WORDS[step.kind](step);

const SIGNS = { reduce: ({ clause }) => `clause ${clause}`, unify: () => "=", assign: () => ":=" };

/** The same in few letters. */
function shortOf(step) {
  const sign = SIGNS[step.kind];
  return `${step.number} ${step.goal || "-"} ${sign === undefined ? step.act : sign(step)}`;
}

const HOWS = { reduce: ({ clause }) => `by clause ${clause}`, unify: () => "", assign: () => "" };

/** The same behind the text of its goal, which says by itself what is made equal and what is computed. */
const howOf = (step) => (HOWS[step.kind] ?? of)(step);

/** What another step did for it, behind that one's number. */
const causeOf = (edge) => CAUSES[edge.kind](edge);

/** How many steps stay, of how many, as `3 of 6 steps`. */
const keptOf = (staying, count) =>
  `${staying.toLocaleString("en")} of ${count.toLocaleString("en")} step${count === 1 ? "" : "s"}`;

/** Which steps a reload has kept, and which have gone: those by clauses that are gone, and what rested on them. */
function reloaded({ staying, going, gone, taken, isRenumbered }) {
  const anew = isRenumbered ? " One of them asked for goals, so they are numbered anew, from 1 on." : "";
  const stay = `${keptOf(staying, staying + going)} ${staying === 1 ? "stays" : "stay"}.${anew}`;
  if (going === 0) return stay;
  const clauses = `clause${gone.length === 1 ? "" : "s"} ${gone.join(", ")} of the text before`;
  const others = going - taken.length, beside = others === 0 ? "" : `, and ${others.toLocaleString("en")} more`;
  const told = taken.map((step) => `step ${step.number} (${of(step)})`).join(", ");
  return `${stay} Gone with ${clauses}: ${told}${beside}.`;
}

export { of, shortOf, howOf, causeOf, keptOf, reloaded };
