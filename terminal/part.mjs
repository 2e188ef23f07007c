// How the front's methods stand in files by what they are for: each file has some of them, whose `this` is the front.

/** @type {<T>(methods: T & ThisType<import("./front.mjs").Front>) => T} */
const part = (methods) => methods;

export { part };
