// Tests of the engine of web/ghcdb.html: its heap, its host, sessions side by side, and what a session answers when it has ended.
import assert from "node:assert/strict";
import test from "node:test";
import zlib from "node:zlib";
import Engine from "../../front/session/engine.mjs";
import Heap from "../../front/session/heap.mjs";
import Host from "../../front/session/host.mjs";
import { engineOfPage, moduleOfPage } from "../../front/session/engine_of_page.mjs";

const APPEND = "append([],Y,Z) :- true | Z = Y.\nappend([A|X],Y,Z) :- true | Z = [A|Z1], append(X,Y,Z1).\n";
const QUERY = "append([1],[2],R)";

function newHeap(pages, most) {
  return new Heap(new WebAssembly.Memory({ initial: pages, maximum: most }), 100);
}

test("a class of blocks holds all sizes up to its own, and no smaller class would", () => {
  for (const bytes of [0, 1, 12, 13, 28, 29, 1020, 1021, 1276, 1277, 65532, 65533, 2 ** 30]) {
    const kind = Heap.classOf(bytes);
    assert.ok(Heap.unitsOf(kind) * 16 >= bytes + 4, `${bytes} bytes fit`);
    if (kind > 1) assert.ok(Heap.unitsOf(kind - 1) * 16 < bytes + 4, `${bytes} bytes do not fit a smaller class`);
  }
});

test("blocks stand apart, at multiples of 16, and keep what is written to them", () => {
  const heap = newHeap(1, 100);
  const sizes = [1, 16, 100, 5000, 12, 70000, 3];
  const places = sizes.map((bytes) => heap.take(bytes));
  places.forEach((place, index) => new Uint8Array(heap.memory.buffer, place, sizes[index]).fill(index + 1));
  places.forEach((place, index) => {
    assert.equal(place % 16, 0);
    const bytes = new Uint8Array(heap.memory.buffer, place, sizes[index]);
    assert.ok(bytes.every((byte) => byte === index + 1));
  });
});

test("a block that was given back is taken again, the last one first", () => {
  const heap = newHeap(1, 1);
  const [first, second] = [heap.take(40), heap.take(40)];
  heap.give(first);
  heap.give(second);
  assert.deepEqual([heap.take(40), heap.take(40)], [second, first]);
});

test("a block that grows keeps its bytes, and its old place is free", () => {
  const heap = newHeap(1, 1);
  const place = heap.take(40);
  new Uint8Array(heap.memory.buffer, place, 40).fill(7);
  const moved = heap.resize(place, 40, 400);
  assert.ok(new Uint8Array(heap.memory.buffer, moved, 40).every((byte) => byte === 7));
  assert.equal(heap.take(40), place);
});

test("where the memory cannot grow, no block is given, and the one to be resized stays", () => {
  const heap = newHeap(1, 2);
  const place = heap.take(60000);
  assert.equal(heap.take(200000), 0);
  assert.equal(heap.resize(place, 60000, 200000), 0);
  assert.notEqual(heap.take(1000), 0);
});

test("no block is given for more bytes than a memory has, whatever the number", () => {
  const heap = newHeap(1, 65536);
  const place = heap.take(40);
  for (const bytes of [2 ** 32, 2 ** 36 + 8, 2 ** 40, 2 ** 53, 2 ** 63]) {
    assert.equal(heap.take(bytes), 0);
    assert.equal(heap.resize(place, 40, bytes), 0);
  }
});

test("what a page does not have stops the engine only when it is asked for", () => {
  const host = new Host({ words: [], files: new Map() });
  const { rattle_errno: error, pthread_join: join } = host.imports(["rattle_errno", "pthread_join"]);
  assert.equal(error(), 0);
  assert.throws(join, /asked for pthread_join, which a page does not have/);
});

test("a module may be packed; a damaged one is not taken", async () => {
  const packed = zlib.deflateSync(moduleOfPage(), { level: 0 });
  const session = (await Engine.load(packed)).open({ program: APPEND, query: QUERY });
  assert.deepEqual(session.line("goals"), ["0.1 ready append([1],[2],_0_1)"]);
  packed[1000] ^= 1;
  await assert.rejects(Engine.load(packed), /is damaged$/);
});

test("sessions stand side by side, each with a state of its own", async () => {
  const { engine } = await engineOfPage();
  const [one, other] = [1, 2].map(() => engine.open({ program: APPEND, query: QUERY }));
  assert.deepEqual(one.line("step 0.1"), ["REDU 1 0.1 by 2", "CALL 1.1 _0_1 = [1|_1_1]", "CALL 1.2 append([],[2],_1_1)"]);
  assert.deepEqual(other.line("records"), ["none"]);
  assert.deepEqual(one.lines(["step 1.1", "show R"]), [["REDU 2 1.1 eq"], ["R = [1|_1_1]"]]);
});

test("a session goes on from a history", async () => {
  const { engine } = await engineOfPage();
  const first = engine.open({ program: APPEND, query: QUERY });
  first.line("step 0.1");
  const history = first.line("save").map((line) => `${line}\n`).join("");
  const second = engine.open({ program: APPEND, query: QUERY, history });
  assert.equal(second.refused, false);
  assert.deepEqual(second.line("records"), ["1 0.1 by 2 reads - binds - makes 1.1,1.2"]);
});

test("a refused program is told, and takes no line", async () => {
  const { engine } = await engineOfPage();
  const session = engine.open({ program: "p(a) :- true | q(", query: "true" });
  assert.deepEqual([session.refused, session.start, session.hasEnded], [true, "program: F2 syntax at 1:18\n", true]);
  assert.deepEqual(session.line("goals"), []);
});

test("a session that was told to quit has ended, with status 0", async () => {
  const { engine } = await engineOfPage();
  const session = engine.open({ program: APPEND, query: QUERY });
  assert.equal(session.hasEnded, false);
  assert.deepEqual(session.line("quit"), []);
  assert.deepEqual([session.hasEnded, session.run.status], [true, 0]);
});

test("a whole session is told with its status, its output and the reply to each line", async () => {
  const { engine } = await engineOfPage(), session = engine.open({ program: APPEND, query: QUERY });
  const replies = session.lines(["step 0.1", "undo 7", "quit"]);
  session.run.end();
  const reply = ["REDU 1 0.1 by 2", "CALL 1.1 _0_1 = [1|_1_1]", "CALL 1.2 append([],[2],_1_1)"];
  const told = { status: session.run.status, start: session.start, rest: session.run.takeOutput().length, err: session.errors(), replies };
  assert.deepEqual(told, { status: 0, start: "", rest: 0, err: "", replies: [reply, ["F16 not a kept step"], []] });
});

test("where the program fails within, nothing in it is called again", async () => {
  const { engine } = await engineOfPage();
  const session = engine.open({ program: APPEND, query: QUERY });
  session.run.host.write = () => { throw new Error("a stand-in for a trap"); };
  assert.deepEqual(session.line("goals"), ["the engine stopped: a stand-in for a trap"]);
  assert.deepEqual([session.hasEnded, session.line("goals")], [true, []]);
});

/** How many bytes a line asks of the heap and writes, where a session has leapt so many steps. */
function bytesOf(engine, steps, line) {
  const program = "count(N) :- N > 0 | M := N - 1, count(M).\ncount(0) :- true | true.\n";
  const session = engine.open({ program, query: "count(100000)" }), { heap } = session.run.host;
  session.line(`leap ${steps}`);
  const { take, resize } = heap;
  let asked = 0;
  heap.take = (bytes) => { asked += bytes; return take.call(heap, bytes); };
  heap.resize = (place, kept, bytes) => { asked += bytes; return resize.call(heap, place, kept, bytes); };
  return session.bytes(line).length + asked;
}

// tests/growth.py measures the processor's time of such lines on the native program.
test("a line asks for at most 1,000 bytes a step of the session, and for no more in a longer one", async () => {
  const { engine } = await engineOfPage();
  for (const line of ["goals", "records", "why STEPS", "undo STEPS", "roll HALF", "save", "leap 1"]) {
    const of = (steps) => bytesOf(engine, steps, line.replace("STEPS", steps).replace("HALF", steps / 2)) / steps;
    assert.ok(of(300) < 1000, `${line}: ${of(300)} bytes a step`);
    assert.ok(of(1200) < 1.5 * of(300), `${line}: ${of(300)} bytes a step of 300, ${of(1200)} of 1,200`);
  }
  const leap = (steps) => bytesOf(engine, 1, `leap ${steps}`) / steps;
  assert.ok(leap(3000) < 1000 && leap(3000) < 1.5 * leap(300), `${leap(300)} bytes a step of 300, ${leap(3000)} of 3,000`);
});

test("a run for which several workers are asked is made by the one that there is", async () => {
  const { engine } = await engineOfPage();
  const program = "count(N) :- N =< 0 | true.\ncount(N) :- N > 0 | M := N - 1, count(M).\n";
  const bytes = (text) => new TextEncoder().encode(text);
  const words = ["program.ghc", "--query", "count(500), count(500)", "--workers", "4"].map(bytes);
  const run = engine.start({ words, files: new Map([["program.ghc", bytes(program)]]) });
  run.give(bytes("leap\n"));
  assert.equal(run.broken, undefined);
  assert.match(new TextDecoder().decode(run.takeOutput()), /\nstopped quiet\n$/);
  run.end();
  assert.equal(run.status, 0);
});
