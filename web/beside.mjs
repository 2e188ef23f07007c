// Two runs side by side: one that was kept, above the one that goes on, both by causal depth; the steps that the other has not are ringed.
import * as Compare from "../front/run/compare.mjs";
import * as Graph from "../front/run/graph.mjs";
import * as Terms from "../front/run/terms.mjs";
import { plural } from "../front/text/plural.mjs";
import Deeds from "./deeds.mjs";
import { find, make, goTo } from "./elements.mjs";
import Naming from "./naming.mjs";
import * as Picture from "./picture.mjs";
import Shown from "./shown.mjs";
import * as StepWords from "./step_words.mjs";
import State from "./state.mjs";
import * as Talk from "./talk.mjs";

const MOST_STEPS = 600; // of a run that is kept beside

/** The run as it is now, which goes on no more. */
function frozen() {
  const { graph, goals, shelf, why, waits, texts, clauses } = State.run;
  const own = Graph.partOf(graph, 0, graph.count), naming = new Naming(State.given, own);
  return { graph: own, goals, shelf, why, waits, texts: new Map(texts), clauses, given: State.given, lines: Talk.typedLines(), shown: (text) => naming.shown(text) };
}

/** Has the run no more steps than two runs side by side may have? */
const isComparable = () => State.run.graph.count <= MOST_STEPS;

/** Keeps the run beside; says whether it did. */
function keep() {
  if (!isComparable()) {
    Deeds.tell(true, `This run has more than ${MOST_STEPS} steps: too many to be seen beside another one. Save keeps it as a file.`);
    return false;
  }
  Shown.kept = frozen();
  Deeds.setOrder("depth");
  Deeds.showNote();
  return true;
}

function drop() {
  Shown.kept = null;
  Deeds.draw();
  Deeds.showNote();
}

/** Keeps this run, and takes another clause in the place of one of its steps. */
function tryClause(number, clause) {
  const { goal } = State.run.graph.byNumber.get(number);
  if (keep()) Talk.send(`roll ${number}`, `step ${goal} ${clause}`);
}

/** The run that was kept goes on, and this one is kept. */
function swap() {
  const { kept } = Shown, now = frozen();
  Deeds.begin(kept.given, kept.lines);
  Shown.kept = now;
}

const isOn = () => Shown.kept !== null;

/** A session of another program or query drops what was kept. */
function follow() {
  if (isOn() && (Shown.kept.given.program !== State.given.program || Shown.kept.given.query !== State.given.query)) Shown.kept = null;
}

const told = () => Compare.compare(Shown.kept.graph, State.run.graph);

/** Rings the steps that the other run has not. */
function ringAlone(area, name, isAlone) {
  for (const mark of area.querySelectorAll(`.mark[data-${name}]`)) mark.classList.toggle("alone", isAlone(Number(mark.dataset[name])));
}

/** Draws the run that was kept, and rings what is alone in either. */
function draw(options) {
  const area = find("beside");
  area.hidden = !isOn();
  if (!isOn()) {
    area.textContent = "";
    return;
  }
  const drawn = Picture.draw(Shown.kept, { ...options, by: "depth", scope: "kept", leastColumns: columns(), legend: false, shown: Shown.kept.shown });
  const picture = drawn.svg.replace(/ data-step="/g, ' data-kept="').replace(/ data-(goal|taken|goto|unfold|from-goal|to-goal)="/g, ' data-kept-$1="');
  area.replaceChildren(Deeds.resultOf(Shown.kept));
  area.insertAdjacentHTML("beforeend", picture);
  if (!isComparable()) return;
  const { pairs } = told(), others = new Set(pairs.values());
  ringAlone(area, "kept", (number) => !pairs.has(number));
  ringAlone(find("canvas"), "step", (number) => !others.has(number));
}

/** As many columns as the deeper of both runs has. */
const columns = () => (isOn() ? Math.max(Shown.kept.graph.deepestChain, Math.min(State.run.graph.deepestChain, MOST_STEPS)) : 0);

/** What is said of both runs. */
function noteParts() {
  if (!isOn()) return [];
  const drops = make("button", { class: "small", id: "drop-run" }, "Drop it");
  if (!isComparable()) return [`Above is the run that you kept. This one has more than ${MOST_STEPS} steps: too many to be compared. `, drops];
  const { pairs, alone, otherAlone, first, instead } = told(), step = first === null ? null : Shown.kept.graph.byNumber.get(first);
  const words = first === null ? "" : ` The first that differs: step ${first} above (${StepWords.of(step)})`;
  return [`Above is the run that you kept. ${plural(pairs.size, "step")} in both, ${alone} in that one alone, ${otherAlone} in this one (ringed).${words}`,
    ...(instead === null ? [] : [", here step ", goTo(instead), ` (${StepWords.of(State.run.graph.byNumber.get(instead))})`]), first === null ? "" : ".", " ",
    make("button", { class: "small", id: "swap-runs" }, "Swap"), " ", drops];
}

/** A click on a step of the run that was kept goes to the same step of this one, or tells what it was. */
function onClick(number) {
  const pairs = isComparable() ? told().pairs : new Map();
  if (pairs.has(number)) {
    Deeds.goTo({ step: pairs.get(number) });
  } else Deeds.tell(false, `Only in the run that was kept: ${Terms.cut(Shown.kept.shown(Picture.tellStep(Shown.kept, Shown.kept.graph.byNumber.get(number))).split("\n").join(", "), 300)}`);
}

export { isComparable, isOn, keep, drop, swap, tryClause, follow, draw, columns, noteParts, onClick };
