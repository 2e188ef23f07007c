// The engine as a release carries it, in place of front/session/engine_of_page.mjs: packed, in the same file as all else.
// packaging/release.mjs puts CARRIED there, before the modules.
import zlib from "node:zlib";
import Engine from "../front/session/engine.mjs";

const THREAD = __filename; // where it runs in a thread, packaging/start.mjs starts the engine's

/** The bytes of the program's module. */
const moduleOfPage = () => zlib.brotliDecompressSync(Buffer.from(CARRIED.module, "base64"));

/** The engine, and with what it was made. */
async function engineOfPage() {
  return { engine: await Engine.load(moduleOfPage()), madeWith: CARRIED.madeWith };
}

export { engineOfPage, moduleOfPage, THREAD };
