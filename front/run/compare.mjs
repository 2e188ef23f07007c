// Pairs the steps of two runs of one program and query: two steps are the same where their goals are, and both did the same with them. Pure.

/** What gives numbers for texts, the same number for the same text. */
function numbering() {
  const numbers = new Map();
  return (text) => {
    if (!numbers.has(text)) numbers.set(text, numbers.size + 1);
    return numbers.get(text);
  };
}

/**
 * What each step of a run is known by in other runs: `goals` has for each step what its goal is known by, `steps` the step itself. A goal is
 * known by its place among the goals of the step that made it; a step by its goal and its act. Asks are told apart by their texts and order.
 */
function namesOf(graph, numberOf) {
  const goals = [], steps = [], asks = new Map();
  for (let index = 0; index < graph.count; index++) {
    const step = graph.stepAt(index), maker = graph.makers.at(index), made = maker > 0 ? steps[graph.indexOf(maker)] : "query";
    const act = step.act.replace(/_\d+_\d+/g, "_"), count = step.goal === null ? (asks.get(act) || 0) + 1 : 0;
    if (step.goal === null) asks.set(act, count);
    const goal = numberOf(step.goal === null ? `ask ${count}` : `${made}.${graph.places.at(index)}`);
    goals.push(goal);
    steps.push(numberOf(`${goal} ${act}`));
  }
  return { goals, steps };
}

/** By the number of each step of the one graph, the number of the step of the other that is the same. */
function pairsOf(oneNames, otherNames, one, other) {
  const places = new Map(otherNames.steps.map((name, index) => [name, index])), pairs = new Map();
  oneNames.steps.forEach((name, index) => {
    if (places.has(name)) pairs.set(one.numbers.at(index), other.numbers.at(places.get(name)));
  });
  return pairs;
}

/**
 * Two runs: `pairs` by the numbers of the one, how many steps each has alone, and the first step of the one that the other has not
 * (`first`), with the step that took the same goal there (`instead`); null where there is none.
 */
function compare(one, other) {
  const numberOf = numbering(), oneNames = namesOf(one, numberOf), otherNames = namesOf(other, numberOf), pairs = pairsOf(oneNames, otherNames, one, other);
  const goals = new Map(otherNames.goals.map((goal, index) => [goal, index]));
  const alone = oneNames.goals.map((goal, index) => index).filter((index) => !pairs.has(one.numbers.at(index)));
  const choice = alone.find((index) => goals.has(oneNames.goals[index])), first = choice === undefined ? alone[0] : choice;
  const numberIn = (graph, index) => (index === undefined ? null : graph.numbers.at(index));
  return { pairs, alone: alone.length, otherAlone: other.count - pairs.size, first: numberIn(one, first), instead: first === undefined ? null : numberIn(other, goals.get(oneNames.goals[first])) };
}

export { compare };
