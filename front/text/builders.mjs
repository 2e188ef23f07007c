// Which arguments a program's bodies may bind, and which heads want one that no body makes. Pure.
import * as CheckerCauses from "./checker_causes.mjs";
import * as Print from "./print.mjs";
import * as Reader from "./reader.mjs";
import * as Tokens from "./tokens.mjs";

const GIVE = ": give it in the query, or bind it in a body by =";
const SHOWN = 60; // letters of what a head wants
const STREAM = "instream/1 0"; // whoever feeds a stream binds it
const keyOf = (predicate, place) => `${predicate} ${place}`;
const has = (term, name) => Reader.addVariables(new Set(), term).has(name);

/** May a goal of the text bind a variable, where `places` are the arguments that calls may bind? */
function mayBind(goal, name, places) {
  if (goal.sort === "assignment") return goal.left.variable === name;
  if (goal.sort !== "call") return Reader.termsOf(goal).some((term) => has(term, name));
  const predicate = Print.predicateOf(goal.call), isBound = (place) => places.has(keyOf(predicate, place));
  return goal.call.arguments.some((term, place) => (term.variable === name ? isBound(place) : has(term, name)));
}

/** The arguments that calls may bind: a body binds the head's variable, puts it into a term, or hands it to such a place. */
function placesBound(clauses) {
  const places = new Set([STREAM]);
  for (let before = -1; before < places.size;) {
    before = places.size;
    for (const { head, body, predicate } of clauses) {
      head.arguments.forEach(({ variable }, place) => {
        const isBound = variable !== undefined && body.some((goal) => mayBind(goal, variable, places));
        if (isBound) places.add(keyOf(predicate, place));
      });
    }
  }
  return places;
}

/** Is an argument of a head built there, as it seems: does the body bind a variable that stands in it? */
function isBuilt({ head, body }, place) {
  const within = Reader.addVariables(new Set(), head.arguments[place]);
  return body.some(({ left }) => left?.variable !== undefined && within.has(left.variable));
}

/** What a clause's head wants at a place, in words; with the cure where it is sure that the body has to make it. */
function words(clauses, { number, predicate, head, text }, place, { isSure, isOfQuery }) {
  const wanted = Print.term(head.arguments[place], { most: SHOWN });
  const start = `clause ${number} of ${predicate} wants ${wanted} as argument ${place + 1}`;
  if (!isSure) return `${start}, and no goal makes it${isOfQuery ? GIVE : ""}`;
  return `${start}: ${CheckerCauses.buildInBody(clauses, number, Tokens.tokensOf(text), place)}`;
}

export { mayBind, placesBound, isBuilt, words, keyOf };
