// What the files of commands add to the front, for tools/lint.
import Beginning from "./beginning.mjs";
import Judging from "./judging.mjs";
import Running from "./running.mjs";
import { Showing } from "./showing.mjs";
import Spying from "./spying.mjs";

type Parts = typeof Beginning & typeof Judging & typeof Running & typeof Showing & typeof Spying;

declare module "./front.mjs" {
  interface Front extends Parts {}
}
