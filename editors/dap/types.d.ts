// What the files of requests add to the adapter, and what they hand to each other, for tools/lint.
import { Beginning } from "./beginning.mjs";
import Changing from "./changing.mjs";
import Judging from "./judging.mjs";
import Looking from "./looking.mjs";
import Restarting from "./restarting.mjs";
import Running from "./running.mjs";
import Setting from "./setting.mjs";
import Stepping from "./stepping.mjs";

type Requests = typeof Beginning & typeof Changing & typeof Judging & typeof Looking
  & typeof Restarting & typeof Running & typeof Setting & typeof Stepping;

declare module "./adapter.mjs" {
  interface Adapter extends Requests {}
}

/** Where a run stopped: the process, and the breakpoint that was hit. */
export interface Where { thread?: number; hit?: { id: number } }

/** Why a run stopped, as the protocol calls it and in words. */
export type Stop = [reason: string, text: string, where?: Where];

/** A variable as an editor is shown it; with parts it has a reference, by which they are asked for. */
export interface Variable {
  name: string;
  value: string;
  variablesReference: number;
  indexedVariables?: number;
  namedVariables?: number;
  evaluateName?: string;
  type?: string;
}
