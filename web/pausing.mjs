// Pauses in long work, in which the browser can draw and take clicks.

/** One pause, which ends when the browser has had its turn. */
const pause = () => new Promise((done) => {
  const { port1, port2 } = new MessageChannel();
  port1.onmessage = () => { port1.close(); done(); };
  port2.postMessage(0);
});

/**
 * What pauses where so many milliseconds are over since the last pause, and says whether it did. Each pause may cost a
 * drawing of the page.
 */
function pauses(slice) {
  let until = performance.now() + slice;
  return async () => {
    if (performance.now() < until) return false;
    await pause();
    until = performance.now() + slice;
    return true;
  };
}

export { pause, pauses };
