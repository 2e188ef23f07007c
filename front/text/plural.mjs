// Counts in words. Pure.

/** A count of things, as `1 step` or `2 steps`. */
const plural = (count, word) => `${count} ${word}${count === 1 ? "" : "s"}`;

export { plural };
