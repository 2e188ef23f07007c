// What all files of requests share. The adapter's methods stand in files by what they are for: each has some of them,
// whose `this` is the adapter; and what is thrown where a request is refused, or cancelled, is the same for all.

/**
 * Methods of the adapter.
 * @template T
 * @param {T & ThisType<import("./adapter.mjs").Adapter>} methods
 * @returns {T}
 */
const requests = (methods) => methods;

// What is thrown where a request is refused, with words for the user.
class Refused extends Error {
  constructor(words, isTold = false) {
    super(words);
    this.isTold = isTold; // in the editor's console, by now
  }
}

const CANCELLED = new Refused("cancelled"); // is thrown where the editor has cancelled the request

export { requests, Refused, CANCELLED };
