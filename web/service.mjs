// The page's end of the worker: asks it, stops it, and starts it anew. From a file a worker's text comes as a blob. Where a browser refuses
// workers, the page does the work itself, and nothing can be stopped.
import Engine from "../front/session/engine.mjs";
import WorkerSide from "../front/session/worker_side.mjs";

const WORKER = "../front/session/worker_side.mjs"; // with all that it needs
const STOPPED = new Error("stopped by hand");
const textOf = (name) => document.querySelector(`script[data-file="${name}"]`).textContent;

/** A worker with what is asked of it. `tellProgress` hears how much memory its line has. */
function side(tellProgress) {
  const waiting = new Map();
  let worker = null, answers = null, lastId = 0;

  function take(data) {
    if (data.progress) tellProgress(data.progress);
    if (data.id === undefined) return;
    const { done, failed } = waiting.get(data.id);
    waiting.delete(data.id);
    if (data.error) failed(new Error(data.error));
    else done(data.answer);
  }

  function ask(what, message) {
    lastId += 1;
    const id = lastId;
    return new Promise((done, failed) => {
      waiting.set(id, { done, failed });
      if (worker !== null) worker.postMessage({ ...message, what, id });
      else if (answers !== null) answers({ ...message, what, id });
      else failAll(STOPPED);
    });
  }

  function failAll(error) {
    const failed = [...waiting.values()];
    waiting.clear();
    failed.forEach((one) => one.failed(error));
  }

  /** Makes a worker; null where the browser refuses it. */
  function newWorker() {
    const text = [textOf(WORKER), "WorkerSide.serve();"].join("\n"), address = URL.createObjectURL(new Blob([text], { type: "text/javascript" }));
    try {
      const made = new Worker(address);
      made.onmessage = ({ data }) => take(data);
      made.onerror = () => failAll(new Error("the worker could not be started"));
      return made;
    } catch {
      return null;
    } finally {
      setTimeout(() => URL.revokeObjectURL(address), 10000);
    }
  }

  const load = () => ask("load", { bytes: Engine.bytesOfBase64(MODULE) });

  async function start() {
    if (worker !== null) worker.terminate();
    worker = newWorker();
    if (worker !== null) {
      try {
        await load();
        return;
      } catch (error) {
        if (error === STOPPED) throw error;
        worker = null;
      }
    }
    answers = WorkerSide.answerer((message) => take(message), (bytes) => Engine.load(bytes));
    await load();
  }

  /** Ends the worker, whatever it is at; what was asked of it fails. */
  function stop() {
    if (worker === null) return;
    worker.terminate();
    worker = null;
    failAll(STOPPED);
  }

  return { start, stop, ask, canStop: () => worker !== null };
}

/** @type {Record<string, (memory: number) => void>} */
const listeners = { progress: () => {} };
const listen = (what, listener) => { listeners[what] = listener; };

/** The worker that has the session; `another` is one beside it. */
const { start, stop, ask, canStop } = side((memory) => listeners.progress(memory));
const another = () => side(() => {});

export { start, stop, ask, canStop, another, listen, STOPPED };
