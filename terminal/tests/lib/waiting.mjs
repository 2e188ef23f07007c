// Waits for what a test does not hear of, and fails where it does not come: a wait without an end keeps all tests waiting.
import assert from "node:assert";

const LONGEST = 200_000; // milliseconds: whatever is waited for comes in less, on a very busy machine too

/**
 * Waits until something is so. The test fails where that takes too long, or where `line`, a promise of what is shown after a line, ends
 * before it; `told` says more.
 * @param {() => boolean} isSo
 * @param {{ line?: Promise<unknown>, told?: () => string }} also
 */
export async function until(isSo, { line, told = () => "" } = {}) {
  const end = Date.now() + LONGEST;
  let shown;
  const hear = (what) => { shown ??= what; };
  line?.then(hear, hear);
  while (!isSo()) {
    if (shown !== undefined) assert.fail(`the line ended before, with ${shown}; ${told()}`);
    if (Date.now() > end) assert.fail(`it did not come in ${LONGEST} ms; ${told()}`);
    await new Promise((resolve) => { setTimeout(resolve, 5); });
  }
}
