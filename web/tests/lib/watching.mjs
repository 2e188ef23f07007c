// How long a page that is open in a browser stands still while it does something, and by how much other work makes the
// machine slower.
import os from "node:os";
import assert from "node:assert/strict";

const MOST_ROUNDS = 8; // the least time of some rounds counts, for other work may be done on the machine

/** Puts up what measures: how long the page stands still, and by how much other work makes this machine slower at this time. */
export const WATCH = `(() => {
  const channel = new MessageChannel();
  let last = 0, longest = 0, isOn = false;
  channel.port1.onmessage = () => {
    const now = performance.now();
    longest = Math.max(longest, now - last);
    last = now;
    if (isOn) channel.port2.postMessage(0);
  };
  const work = () => { const start = performance.now(); let sum = 0; for (let at = 0; at < 8000000; at++) sum += at % 7; return performance.now() - start + sum * 0; };
  window.slowness = async () => {
    const times = [];
    for (let round = 0; round < 16; round++) { times.push(work()); await new Promise((done) => setTimeout(done, 2)); }
    const sorted = times.slice(4).sort((one, other) => one - other); // the first rounds are slow, for the browser has not compiled them yet
    return Math.max(1, sorted[9] / sorted[0]);
  };
  window.measured = async (does) => {
    last = performance.now();
    longest = 0;
    isOn = true;
    channel.port2.postMessage(0);
    const start = performance.now();
    await does();
    const took = performance.now() - start;
    await new Promise((done) => setTimeout(done, 100));
    isOn = false;
    return { took: Math.round(took), freeze: Math.round(longest), slowness: await window.slowness() };
  };
  return true;
})()`;

/** How long something took and the page stood still; `slowness` is at least how many programs want each processor of this machine. */
export async function measured(page, does) {
  const told = await page.value(`measured(() => ${does})`);
  return { ...told, slowness: Math.max(told.slowness, os.loadavg()[0] / os.cpus().length) };
}

/** Tries something until a round is as quick as it has to be. */
export async function quickEnough(words, isQuick, does) {
  const told = [];
  for (let round = 0; round < MOST_ROUNDS; round++) {
    told.push(await does());
    if (isQuick(told[told.length - 1])) return;
  }
  assert.fail(`${words}: ${JSON.stringify(told)}`);
}

