// Saves and opens: a session as a text, the picture as an SVG, a history, a program; and what is printed.
import * as Replies from "../front/protocol/replies.mjs";
import * as SessionText from "../front/protocol/session_text.mjs";
import * as Graph from "../front/run/graph.mjs";
import * as Lanes from "../front/run/lanes.mjs";
import * as Terms from "../front/run/terms.mjs";
import { queryOf } from "../front/text/query_comment.mjs";
import Deeds from "./deeds.mjs";
import { find, make } from "./elements.mjs";
import * as Names from "./names.mjs";
import OnScreen from "./on_screen.mjs";
import * as Picture from "./picture.mjs";
import Shown from "./shown.mjs";
import State from "./state.mjs";
import * as Talk from "./talk.mjs";
import { HOLE, AGAIN, isBroken, isTooLong, tellTooLong } from "./whole_texts.mjs";

const MOST_PIXELS = 60e6; // of a PNG
const ROOM_ON_PAPER = 1100; // points
const NO_LINES = { lines: [], replies: [] };

function saveBlob(name, blob) {
  const link = make("a", { href: URL.createObjectURL(blob), download: name });
  link.click();
  setTimeout(() => URL.revokeObjectURL(link.href), 1000);
}

const save = (name, type, text) => saveBlob(name, new Blob([text], { type }));

/** The steps from one number up to another in recorded order, as a run of their own; all that is shown where none are given. */
function partOf(from, to) {
  const { graph, lanes } = State.run, first = from === undefined ? -1 : graph.indexOf(from), last = to === undefined ? -1 : graph.indexOf(to);
  if (first < 0 || last < first) return OnScreen.shownRun();
  const end = Math.min(last + 1, first + OnScreen.MOST_SIZE), goals = end === graph.count ? State.run.goals : [];
  const placed = Lanes.lanesIn(State.run, lanes, first, end, goals), incoming = OnScreen.incoming(first, end);
  const part = { graph: Graph.partOf(graph, first, end), goals, shelf: [], store: graph.store };
  return { ...State.run, ...part, placed, before: first, incoming, isPart: true };
}

/**
 * The run, or a part of it, as an SVG that stands alone.
 * @param {{ theme?: string, from?: number, to?: number }} how
 */
function pictureText({ theme = "light", from, to } = {}) {
  return Picture.draw(partOf(from, to), { by: Shown.by, theme, room: find("canvas").clientWidth * Shown.zoom, legend: true, title: State.given.query, shown: Names.shown }).svg;
}

/** The whole run, as far as a picture can show it, for paper. */
function wholePicture() {
  const { graph } = State.run, last = graph.count - 1;
  const run = last < 0 ? OnScreen.shownRun() : partOf(graph.numbers.at(0), graph.numbers.at(last));
  return Picture.draw(run, { by: Shown.by, theme: "light", room: ROOM_ON_PAPER, legend: true, shown: Names.shown, scope: "paper-run" }).svg;
}

/** A picture in pixels, two for each point. */
function pngOf(svg) {
  return new Promise((done, failed) => {
    const image = new Image();
    image.onload = () => {
      const area = document.createElement("canvas"), most = Math.sqrt(MOST_PIXELS / Math.max(1, image.width * image.height)), scale = Math.min(2, most);
      area.width = Math.round(image.width * scale);
      area.height = Math.round(image.height * scale);
      area.getContext("2d").drawImage(image, 0, 0, area.width, area.height);
      area.toBlob((blob) => (blob === null ? failed(new Error("the picture is too large")) : done(blob)), "image/png");
    };
    image.onerror = () => failed(new Error("the browser does not draw it"));
    image.src = `data:image/svg+xml;charset=utf-8,${encodeURIComponent(svg)}`;
  });
}

/** Saves a picture: `form` is `svg` or `png`, `theme` is `light` or `dark`, `from` and `to` the steps of a part. */
async function savePicture({ form = "svg", ...how } = {}) {
  const svg = pictureText(how);
  if (form === "svg") save("run.svg", "image/svg+xml", svg);
  else await pngOf(svg).then((blob) => saveBlob("run.png", blob), (error) => Deeds.tell(true, `No PNG was made: ${error.message}.`));
}

const savedEntries = () => State.entries.filter((entry) => !entry.note && !isBroken(entry));
const sessionText = () => SessionText.write({ ...State.given, entries: savedEntries() });

/** Saves the session; a history with a hole is told, and not written. */
function saveSession() {
  const isWhole = !Replies.hasHole(State.given.history), tellBad = (why) => Deeds.tell(true, why);
  if (isWhole) save("session.txt", "text/plain", sessionText());
  if (!isWhole) tellBad(`Nothing was saved: the session began with a history that is not whole: ${HOLE}.`);
  else if (State.entries.some(isBroken)) tellBad(`The session is saved without its history: ${HOLE}. ${AGAIN}.`);
}

/** A program that was opened, on the query that its comment names, else on the one that stands here. */
function readProgram(text) {
  if (isTooLong(text)) throw new RangeError(tellTooLong(text));
  return { program: text, query: queryOf(text) || Deeds.typed().query, history: "", ...NO_LINES };
}

/** What a text begins: a saved session, a history of the program and query that stand here, else a program. */
function read(text) {
  if (text.startsWith("ghc-history ")) return { ...Deeds.typed(), history: text, ...NO_LINES };
  const exampleOf = (name) => EXAMPLES.find((example) => `${example.name}.ghc` === name)?.program;
  return SessionText.read(text, exampleOf) ?? readProgram(text);
}

/** Opens a text, and plays its lines; where that cannot be done, tells why. */
function openText(text) {
  try {
    const { lines, replies, ...texts } = read(text);
    if (Replies.hasHole(texts.history)) throw new Error(`its history is not whole: ${HOLE}`);
    Deeds.beginOther(() => { Deeds.begin(texts, lines).then(() => compare(lines, replies)); });
  } catch (error) {
    Deeds.tell(true, `This text was not opened: ${error.message}.`);
  }
}

/** Tells the first reply that is another than the one in the text that was opened. */
function compare(lines, replies) {
  if (State.refusal) return;
  const other = SessionText.firstOther(lines, replies, State.entries.map((entry) => entry.reply));
  if (other === null) return;
  const cut = (lines) => make("code", null, Terms.cut(lines.join(" ⏎ ") || "(no reply)", 160));
  Deeds.tell(true, `Line ${other.at + 1}, `, make("code", null, other.line), ", is answered otherwise than in the text: there ", cut(other.saved), ", here ", cut(other.now), ".");
}

/** The text of bytes: in UTF-8, else in Latin-1, which has a letter for each byte. */
function textOf(bytes) {
  try {
    return { text: new TextDecoder("utf-8", { fatal: true }).decode(bytes), isLatin: false };
  } catch {
    return { text: new TextDecoder("windows-1252").decode(bytes), isLatin: true };
  }
}

/** Opens the bytes of a file, and tells where they are no text, or not in UTF-8. */
async function openBytes(name, bytes) {
  const { text, isLatin } = textOf(bytes);
  if (text.includes("\0")) {
    Deeds.tell(true, `${name} was not opened: it is no text in UTF-8.`);
    return;
  }
  openText(text);
  await Talk.settled();
  if (isLatin && find("answer").hidden) Deeds.tell(false, `${name} is not in UTF-8. It was read as Latin-1: look at its letters beyond ASCII.`);
}

async function onChosen() {
  const [file] = find("file").files;
  if (!file) return;
  await open(file);
  find("file").value = "";
}

const open = async (file) => openBytes(file.name, new Uint8Array(await file.arrayBuffer()));

const hasFiles = ({ dataTransfer }) => dataTransfer !== null && [...dataTransfer.types].includes("Files");

/** Opens a file that is dropped anywhere on the page. */
function onDrop(event) {
  if (!hasFiles(event)) return;
  event.preventDefault();
  if (event.dataTransfer.files.length > 0) open(event.dataTransfer.files[0]);
}

/** Which steps the picture shows. */
function stepsTold() {
  const { count } = State.run.graph, most = OnScreen.MOST_SIZE, told = (number) => number.toLocaleString("en");
  if (count > most) return `The first ${told(most)} of ${told(count)} steps`;
  return count === 1 ? "1 step" : `All ${told(count)} steps`;
}

/** The rows of the values, as texts. */
const values = () => [...find("store").querySelectorAll(".row")].map((row) => make("div", null, row.textContent));

/** Fills what is printed alone: program, query, result, values, and the picture of the whole run. */
function fillPaper() {
  const { program, query } = State.given, isThere = State.session && !State.refusal, picture = make("div");
  if (isThere) picture.innerHTML = wholePicture();
  const parts = [
    ["Program", make("pre", null, program)], ["Query", make("pre", null, query)],
    ["Result", make("p", null, find("result").textContent)],
    ["Values", make("div", { class: "paper-values" }, ...values())],
    [isThere ? stepsTold() : "No run", picture],
  ];
  const all = parts.flatMap(([name, part]) => [make("h2", null, name), part]);
  find("paper").replaceChildren(make("h1", null, "ghcdb"), ...all);
}

function listenToAll() {
  find("file").addEventListener("change", onChosen);
  document.addEventListener("dragover", (event) => { if (hasFiles(event)) event.preventDefault(); });
  document.addEventListener("drop", onDrop);
  window.addEventListener("beforeprint", fillPaper);
  window.addEventListener("afterprint", () => find("paper").replaceChildren());
}

export { savePicture, saveSession, sessionText, pictureText, pngOf, openText, openBytes, listenToAll };
