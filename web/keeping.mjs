// Loses nothing: keeps each session in the browser's own storage, with a text that was typed and not started, offers to go on, and makes a link.
import * as Replies from "../front/protocol/replies.mjs";
import * as SessionText from "../front/protocol/session_text.mjs";
import * as Terms from "../front/run/terms.mjs";
import { plural } from "../front/text/plural.mjs";
import Deeds from "./deeds.mjs";
import { find, make, joined, link } from "./elements.mjs";
import * as Links from "./links.mjs";
import State from "./state.mjs";
import * as Talk from "./talk.mjs";

const NAME = "ghcdb.session", MOST = 5, MOST_OF_ONE = 3; // sessions of one's own programs that are kept; of one text
const PAUSE = 400; // milliseconds after a letter was typed
const NO_LINK = "This browser cannot compress a text for a link. Save writes the session as a file.";
let name = null; // of this session in the storage, where no other one writes; null before anything of it is kept
let source = null; // the name of the session that was kept, and that this one went on from
let origin = null; // the name of the first session of this text, which was changed since, and started again
let left = null; // what was given to the session that was left, until another one has begun
let before = [], timer = null, isKept = true;

const warn = (event) => event.preventDefault();

/** Whether the browser keeps the lines; where it does not, it asks before the page is left. */
function setKept(isSo) {
  isKept = isSo;
  window[isKept ? "removeEventListener" : "addEventListener"]("beforeunload", warn);
}

/** The text of the session, with all lines and no replies. */
const linesText = () => SessionText.write({ ...State.given, entries: Talk.typedLines().map((line) => ({ line, reply: [] })) });

const isExample = (program) => EXAMPLES.some((example) => example.program === program);
const isOwn = () => !Deeds.isOnTour() && !(isExample(Deeds.typed().program) && isExample(State.given.program));

/** Was anything done since Start? */
const isBegun = () => State.entries.length > 0 || State.given.history !== "";

/** What there is to be kept: the session, and what was typed since its Start; null where all of it stands in an example. */
function now() {
  const typed = Deeds.typed(), draft = Deeds.isChanged() ? { program: typed.program, query: typed.query } : null;
  if (isBegun()) return { text: linesText(), draft, looked: Deeds.looked() };
  return typed.program.trim() === "" || isExample(typed.program) ? null : { text: SessionText.write({ ...State.given, ...typed, entries: [] }), draft: null };
}

/** What was kept under a name; null where nothing can be read there. */
function read(key) {
  try {
    const kept = localStorage.getItem(key), found = kept.startsWith("{") ? JSON.parse(kept) : { text: kept };
    const { text, draft = null, at = 0, isOwn: own, of = key, looked = null } = found;
    const session = SessionText.read(text, () => undefined);
    return session === null ? null : { ...session, draft, at, key, of, looked, isOwn: own ?? !isExample(session.program) };
  } catch {
    return null;
  }
}

/** All that is kept, the last one first. */
function all() {
  try {
    const keys = Object.keys(localStorage).filter((key) => key === NAME || key.startsWith(`${NAME}.`));
    return keys.map(read).filter(Boolean).sort((one, other) => other.at - one.at);
  } catch {
    return [];
  }
}

const isOfGiven = (session) => ["program", "query", "history"].every((part) => session[part] === State.given[part]);

const areFirst = (lines, all) => lines.every((line, at) => line === all[at]);

/** Whether a session that is kept has all of this one. */
const isWithin = (session) =>
  !Deeds.isChanged() && session.draft === null && isOfGiven(session) && areFirst(Talk.typedLines(), session.lines);

/** Whether this session has all lines of one that is kept. */
const holdsAll = (session) => isOfGiven(session) && areFirst(session.lines, Talk.typedLines());

/** Is a session one too many of its text? The newest ones come first. */
const isOneTooMany = ({ of }, at, own) => own.slice(0, at).filter((other) => other.of === of).length >= MOST_OF_ONE;

/** Forgets the oldest sessions. Examples have the places that one's own programs leave, and one at least. */
function forgetOldest() {
  const kept = all(), own = kept.filter((session) => session.isOwn), many = own.filter(isOneTooMany);
  const stay = own.filter((session) => !many.includes(session)), others = kept.filter((session) => !session.isOwn);
  const gone = [...many, ...stay.slice(MOST), ...others.slice(Math.max(1, MOST - stay.length))];
  for (const { key } of gone) localStorage.removeItem(key);
}

/** Where this session has all that the one had from which it went on, it takes that one's place. */
function replaceSource() {
  const kept = source === null ? null : read(source);
  if (kept === null || !holdsAll(kept)) return;
  localStorage.removeItem(source);
  source = null;
}

/** Writes what is to be kept under the session's own name. */
function write(kept) {
  const isNew = name === null, at = Date.now();
  name = name || `${NAME}.${at}.${Math.random()}`;
  origin = origin || name;
  localStorage.setItem(name, JSON.stringify({ ...kept, at, isOwn: isOwn(), of: origin }));
  replaceSource();
  if (isNew) forgetOldest();
}

function isTooLong() {
  const { program, query, history } = State.given;
  return State.entries.length > Links.MOST_LINES || program.length + query.length + history.length > Links.MOST_READ;
}

/** Keeps the session as it is; where it is too long, or the browser refuses it, the page warns before it is left. */
function keep() {
  clearTimeout(timer);
  if (State.given === left) return;
  if (isTooLong() || Replies.hasHole(State.given.history)) {
    setKept(false);
    return;
  }
  const kept = now();
  if (kept === null || (name === null && all().some(isWithin))) return;
  try {
    write(kept);
    setKept(true);
  } catch {
    setKept(false);
  }
}

/** The same, a little after the last letter was typed. */
function keepSoon() {
  clearTimeout(timer);
  timer = setTimeout(keep, PAUSE);
}

/** Another session begins; `first` names the first one of its text. Gives the name under which this one stays kept. */
function leave(first = null) {
  keep();
  const key = name || source;
  left = State.given;
  name = null;
  source = null;
  origin = first;
  return key;
}

/** The same where its text starts again, and something was done; a program that was only typed keeps its name. */
const leaveDone = () => (State.given !== left && isBegun() ? leave(origin) : null);

/** A button that brings back what was left under a name; none where the browser does not keep it. */
function wayBack(key, words) {
  before = all().filter((kept) => kept.key === key);
  return before.map(() => make("button", { class: "small main-button", "data-go-on": 0 }, words));
}

/** Begins another session than the one that stands here. Where this one is not kept, it asks first. */
async function beginOther(begins) {
  keep();
  if (isKept || now() === null) {
    await beginNow(begins);
    return;
  }
  const goes = make("button", { class: "small danger", id: "go-without" }, "Go on without it");
  goes.addEventListener("click", () => { Deeds.hideAnswer(); beginNow(begins); });
  Deeds.tell(true, "What stands here is not kept in this browser; Save writes it as a file. ", goes);
}

/** Begins another session, and offers to bring this one back where its program is the user's own. */
async function beginNow(begins) {
  const isMine = isOwn(), key = leave();
  await begins();
  await Talk.settled();
  const back = isMine && find("answer").hidden ? wayBack(key, "Go back to it") : [];
  if (back.length > 0) Deeds.tell(false, "Your own program is kept. ", ...back);
}

function wordsOf({ lines, history, query }) {
  const begun = history === "" ? "A program for " : "A run on ";
  const done = lines.length === 0 ? begun : `${plural(lines.length, "line")} on `;
  return [done, make("code", null, Terms.cut(query.trim() || "no query", 60))];
}

/** Of an address that holds a session, only one that has gone on from there is offered. */
const goesOn = (session) => session.program === State.given.program && session.query === State.given.query && session.lines.length > Talk.typedLines().length;

/**
 * Offers to go on with what was kept, where the page was not opened for something else, and no line of its address is
 * answered just now.
 */
function offer(isOfLink = false) {
  before = isOfLink ? all().filter((session) => session.key !== name && goesOn(session)) : all();
  const [last, ...others] = before;
  if (last === undefined || (location.hash.length > 1 && !isOfLink)) return;
  if (isOfLink && !find("answer").hidden) return;
  const isOne = last.lines.length < 2, them = isOne ? "it" : "them";
  const links = others.map((session, index) => link({ "data-go-on": index + 1 }, ...wordsOf(session)));
  const also = links.length > 0 ? [" Also kept: ", ...joined(links, ", ")] : [];
  Deeds.tell(false, ...wordsOf(last), isOne ? " is" : " are", " kept from the last time. ", make("button", { class: "small main-button", id: "go-on", "data-go-on": 0 }, `Go on with ${them}`), " ",
    make("button", { class: "small", id: "forget" }, `Forget ${them}`), ...also);
}

function forget() {
  try {
    localStorage.removeItem(before[0].key);
  } catch {
    setKept(false);
  }
  Deeds.hideAnswer();
  offer();
}

/** Plays a session that was kept, and puts there what was typed since its Start. */
async function goOn(index) {
  const { program, query, history, lines, draft, key, of, looked } = before[index];
  leave();
  await Deeds.begin({ program, query, history }, lines);
  if (!isOfGiven(before[index])) return;
  if (draft !== null) Deeds.setTyped(draft);
  Deeds.takeUpLooked(looked);
  source = key;
  origin = of;
  keep();
}

/** The address of the page with all of the session in it, or in words why there is none. */
async function address() {
  const text = linesText(), told = (number) => number.toLocaleString("en"), { MOST, MOST_READ, MOST_LINES } = Links;
  const none = (by) => ({ why: `This session is too long for a link (${by}). Save writes it as a file.` });
  if (!Links.isThere()) return { why: NO_LINK };
  const isLong = text.length > MOST_READ || State.entries.length > MOST_LINES;
  if (isLong) return none(`${told(MOST_READ)} bytes and ${told(MOST_LINES)} lines at most`);
  const looked = Deeds.looked(), notes = looked === null ? "" : `&n=${await Links.pack(JSON.stringify(looked))}`;
  const letters = `${await Links.pack(text)}${notes}`;
  if (letters.length > MOST) return none(`${told(letters.length)} letters, ${told(MOST)} at most`);
  return { place: `${location.href.split("#")[0]}#s=${letters}` };
}

/** Puts the session into the address, and shows it to be copied. */
async function makeLink() {
  const { place, why } = await address();
  if (place === undefined) {
    Deeds.tell(true, why);
    return;
  }
  history.replaceState(null, "", place);
  const field = make("input", { readonly: true, value: place, id: "link-text", "aria-label": "The link" });
  Deeds.tell(false, "The address holds program, query and lines now: ", field, " ", make("button", { class: "small", id: "copy-link" }, "Copy"), Deeds.isChanged() ? " What you typed since Start is not in it." : "");
  field.select();
}

async function copyLink() {
  const field = find("link-text"), copies = async () => navigator.clipboard.writeText(field.value);
  field.select();
  find("copy-link").textContent = await copies().then(() => "Copied", () => "Copy it by hand");
}

export { keep, keepSoon, leaveDone, wayBack, offer, goOn, forget, beginOther, makeLink, copyLink };
