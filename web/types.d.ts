// What the parts of the page hand to each other, for tools/lint: elements by their names, and what one does at another's wish.
import type { Opening } from "../front/types";

/** The elements that are more than any element, by their names in page.html or where they are made. */
export interface Places {
  program: HTMLTextAreaElement;
  query: HTMLInputElement;
  examples: HTMLSelectElement;
  line: HTMLInputElement;
  search: HTMLInputElement;
  until: HTMLInputElement;
  file: HTMLInputElement;
  "note-text": HTMLInputElement;
  "larger-query": HTMLButtonElement;
  "link-text": HTMLInputElement;
  overview: HTMLCanvasElement;
  help: HTMLDialogElement;
  language: HTMLTemplateElement;
  start: HTMLFormElement;
  play: HTMLButtonElement;
  step: HTMLButtonElement;
  leap: HTMLButtonElement;
  "leap-ten": HTMLButtonElement;
  "undo-last": HTMLButtonElement;
  tidy: HTMLButtonElement;
  "ask-more": HTMLButtonElement;
  "keep-run": HTMLButtonElement;
  "trail-back": HTMLButtonElement;
}

/** What can be chosen in the picture: a step or a goal. */
export interface Choice { step?: number; goal?: string }

/** A clause's lines in the program. */
export interface Lines { from: number; to: number }

/** A text, or an element. */
export type Part = string | Node;

/** The texts in the fields, or of a session; no history is an empty one. */
export type Texts = Omit<Opening, "history"> & { history?: string };

/** What the parts do at each other's wish; page.mjs says who does what. */
export interface Doers {
  begin(texts: Texts, lines?: string[]): Promise<unknown>;
  beginOther(begins: () => unknown): Promise<void>;
  typed(): Texts;
  isChanged(): boolean;
  setTyped(texts: Texts): void;
  keepSoon(): void;
  leaveDone(): string | null;
  wayBack(key: string | null, words: string): HTMLElement[];
  showTab(name: string): void;
  setOrder(by: string): void;
  showNow(): void;
  showTime(): void;
  timeRows(): { key: string | null; does: () => HTMLElement }[];
  showNote(): void;
  showDetail(chosen: Choice | null): void;
  draw(): void;
  drawStrip(): void;
  goToPart(from: number): void;
  choose(chosen: Choice | null): void;
  scrollTo(chosen: Choice): void;
  goTo(chosen: Choice): void;
  visit(step: number): void;
  markWay(steps: number[]): void;
  ring(steps: { has(number: number): boolean }): void;
  showSlice(numbers: Iterable<number>, others: number[]): void;
  showAsked(asked: object): void;
  showFlags(isIn: Uint8Array, count: number): void;
  scrollToLit(): boolean;
  markClause(clause: Lines | null): void;
  markLit(clauses: number[]): void;
  showPlace(name: string, line: number, letter: number, length: number, words?: string): void;
  underline(line: number, letter: number, length: number, words: string): void;
  lightClause(number: number): void;
  size(factor: number): void;
  selectRange(one: number, other: number): void;
  resultOf(kept: object): HTMLElement;
  tell(isBad: boolean, ...parts: Part[]): void;
  hideAnswer(): void;
  tellSlice(name: string, slice: object): void;
  openMenu(chosen: object, anchor: Element): void;
  askFirst(name: string, words: string, line: string, gone: { size: number; has(number: number): boolean }, anchor: Element): void;
  showRefusal(given: Texts, refused: string, ...after: Part[]): boolean;
  notesOn(program: string): Part[];
  whyInShort(why: object): Part[];
  drawBeside(how: object): void;
  besideColumns(): number;
  besideParts(): Part[];
  canKeepRun(): boolean;
  keepRun(): boolean;
  looked(): object | null;
  takeUpLooked(kept: object | null): void;
  isOnTour(): boolean;
  endTour(): void;
  pointAgain(): void;
  savePicture(how: object): Promise<void>;
}
