// The story of docs/TUTORIAL.md as a guided tour: at each station some words, and the console line that a click there types. Pure.
const QUERY = "bill(12,3,T)";
const FIRST_RUN = ["step 0.1", "step 1.1", "step 2.1", "step 1.2", "step 4.1", "step 1.3"];
const mend = (program) => program.replace("price(N,P) :- N > 0 |", "price(N,P) :- N > 0, N < 10 |");

/** The sessions of the story: how each begins, given the example's program. */
const SESSIONS = {
  first: { program: (bill) => bill, lines: [] },
  again: { program: (bill) => bill, lines: FIRST_RUN },
  asked: { program: (bill) => bill, lines: FIRST_RUN },
  mended: { program: mend, lines: [] },
};

const click = (line, words) => ({ line, words, isTyped: false });
const type = (line, words) => ({ line, words, isTyped: true });

const CHAPTERS = [
  { name: "A wrong bill", session: "first", stations: [
    click("step 0.1", "Two things are bought: 12 pieces of one, 3 of another. A piece costs 10, and 8 where ten or more are bought: 12 * 8 + 3 * 10 = 126. Let us see what the program finds. The green ring is the query's goal: click it, then `Step`."),
    click("step 1.1", "Step 1 made three goals. Two are ready. The third, a sum, waits for both prices: its dotted arcs point at the goals that have them. Click 1.1, the first price, then `Step`."),
    click("step 2.1", "The price is to be computed: `12 * 10`. Click 2.1, then `Step`."),
    click("step 1.2", "A square computes. Now the second price: click 1.2, then `Step`."),
    click("step 4.1", "And its sum: click 4.1, then `Step`."),
    click("step 1.3", "Both prices are there, and the sum has become ready. Click 1.3, then `Step`."),
    click("show T", "Among the values, click `T`, then `Show`."),
  ] },
  { name: "Which clause was it?", session: "first", stations: [
    click("blame T", "T is 150, and should be 126. Which clause is to blame? Among the values, click `T`, then `Find the wrong clause`: you are asked about a call, what it was given and what it gave."),
    click("blame T -0.1", "Is 150 right for 12 and 3 pieces? No: click `Wrong`. In the console you see how that is typed: `-0.1` says that what goal 0.1 gave is wrong."),
    click("blame T -0.1 -1.1", "Twelve pieces for 120? They cost 96: click `Wrong`."),
  ] },
  { name: "Take it back", session: "first", stations: [
    type("undo 2", "Found: step 2 took 1.1 by clause 2, the clause for few pieces, though clause 3 says yes too. Take it back: type `undo 2`."),
    click("roll 2", "Refused: step 3 depends on it. Click step 2, then `Roll back`: what will be taken back is ringed before anything is done. Then take it back."),
    click("records", "The steps 4 and 5 came later than step 2, and they stay: they do not depend on it. Click `records`, beside the word Step."),
    click("goals", "What is there to do now? Click `goals`, beside that word."),
  ] },
  { name: "Another clause", session: "first", stations: [
    click("step 1.1 3", "Click 1.1, and choose clause 3, for ten pieces or more."),
    click("step 7.1", "Click 7.1, then `Step`."),
    click("step 1.3", "Click 1.3, then `Step`."),
    click("show T", "Among the values, click `T`, then `Show`."),
    click("shelf", "126, as it should be; step 5 was used as it stood. What was taken back is not lost: click `shelf`, beside Undone. Each of these could be redone."),
  ] },
  { name: "Where does a value come from?", session: "again", stations: [
    click("who T", "The first run stands here once more. Who bound T? Among the values, click `T`, then `Who bound it?`"),
    click("why 6", "Step 6 did. In the picture, click step 6: its causes light up. Then `Why?`"),
    type("explain _1_1", "It read two prices, P₁ and Q₁, which the console calls `_1_1` and `_1_2`. One line tells on which steps a value rests: type `explain _1_1`. Behind step 2 stands `or 3`: another clause could have been chosen there."),
  ] },
  { name: "Try another continuation", session: "asked", stations: [
    click("roll 2", "The first run once more. What would the bill be if twelve pieces cost 7 each? No clause says so. Take step 2 back with what came of it: click it, then `Roll back`."),
    click("ask _1_1 := 12 * 7", "The sum waits for P₁ now, which the console calls `_1_1`. Ask for another price in its place: click `Add goals`, type `_1_1 := 12 * 7`, and press `Enter`."),
    click("step 7.1", "The ask is step 7, a hexagon: it consumed no goal, and it depends on step 1, which made `_1_1`. Click 7.1, which it made, then `Step`."),
    click("step 1.3", "Click 1.3, then `Step`."),
    click("show T", "Among the values, click `T`, then `Show`."),
    click("why 7", "114. Click step 7, then `Why?`"),
  ] },
  { name: "Mend the program", session: "mended", stations: [
    click("step 0.1", "The run was mended; now the program is, too: clause 2 says `N > 0, N < 10`. Click 0.1, then `Step`."),
    type("step 1.1 2", "The menu of 1.1 does not offer clause 2 any more. Try it all the same: type `step 1.1 2`."),
    type("leap", "It says no now: the choice is no longer free. Let it run on: type `leap`."),
    click("show T", "Among the values, click `T`, then `Show`."),
  ] },
];

/** All stations in one row, each with its chapter's name and the session in which it stands. */
const STATIONS = CHAPTERS.flatMap((chapter) => chapter.stations.map((station) => ({ ...station, chapter: chapter.name, session: chapter.session })));
const END = "126. That was the tour. Choose an example above, press `Run`, click what you see, and `Add goals`; or type `leap` in the console. The key `?` tells what keys do.";

/** The lines that lead to a station, from the beginning of its session. */
function linesBefore(index) {
  const { session } = STATIONS[index];
  const earlier = STATIONS.slice(0, index).filter((station) => station.session === session).map((station) => station.line);
  return [...SESSIONS[session].lines, ...earlier];
}

const beginsSession = (index) => index === 0 || STATIONS[index].session !== STATIONS[index - 1].session;

/** What one clicks so that a line can be clicked: a part of the picture or of the store, as a selector. */
function opensAt(line) {
  const [word, name, ...answers] = line.split(" ");
  if (word === "ask") return "#ask-more";
  if (word === "step") return `#canvas [data-goal="${name}"]`;
  if (["undo", "roll", "why"].includes(word)) return `#canvas [data-step="${name}"]`;
  return ["show", "who", "blame"].includes(word) && answers.length === 0 ? `[data-variable="${name}"]` : `[data-line="${line}"]`;
}

export { QUERY, SESSIONS, STATIONS, END, linesBefore, beginsSession, opensAt };
