// What the parts of the page do at each other's wish: types.d.ts has the names, and page.mjs says who does what. A part
// knows these names, and not who is behind them.
const Deeds = /** @type {import("./types").Doers} */ ({});

export default Deeds;
