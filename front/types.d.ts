// What the modules of front/ hand to each other, for tools/lint: a step, a goal, a term, a reply.

/** What the console replies to a line: its lines. */
export type Reply = string[];

/** A binding of a record line: a variable and the text of a term. */
export interface Binding { variable: string; term: string }

/** What a step does. */
export type Kind = "reduce" | "unify" | "assign" | "input" | "close" | "ask";

/** A step as `shelf` and a port tell it. An ask consumes no goal; only a reduction has a clause. */
export interface ShortStep { number: number; goal: string | null; act: string; kind: Kind; clause: number | null }

/** A kept step as its record line tells it. */
export interface Step extends ShortStep {
  names?: readonly string[];
  reads?: string[];
  binds?: readonly Binding[];
  makes?: string[];
}

/** A goal as `goals` tells it. */
export interface Goal {
  name: string;
  status: string; // ready, waits, failed or stream
  waitsFor: string[];
  refusal: string; // F10 and others, where it has failed
  text: string;
  sort: string;
}

/** A term as reader.mjs reads it: a variable, an integer, or a name with its arguments. */
export type Term =
  | { variable: string; integer?: undefined; name?: undefined; arguments?: undefined }
  | { variable?: undefined; integer: bigint; name?: undefined; arguments?: undefined }
  | Compound;
export interface Compound { variable?: undefined; integer?: undefined; name: string; arguments: Term[] }

/** The words of a command line, read: the program's file, its place among them, the value of each option. */
export interface WordsRead {
  file?: string;
  fileAt?: number;
  asksOnly: boolean; // for help, or the version
  query?: string;
  load?: string;
  schedule?: string;
  workers?: string;
}

/** A text without what was refused: where the goal began and ended that is out, or what the clause may have defined. */
export interface Without {
  text: string;
  names: string[];
  start?: Place;
  end?: Place;
  isAnybodys?: boolean; // the clause may have defined anything
}

/** A place in a text; the console counts columns in bytes. */
export interface Place { line: number; column: number }

/** With what a session begins: texts. */
export interface Opening { program: string; query: string; history?: string }

/** What the engine is given: words, files by their names, the streams (1, 2) that are devices without room. */
export interface HostGiven { words: Uint8Array[]; files: Map<string, Uint8Array>; full?: number[] }

/** What the engine's module exports: the program, and the calls by which it can be left and entered again. */
export type EngineCalls = {
  memory: WebAssembly.Memory;
  __heap_base: WebAssembly.Global;
  main(): number;
  asyncify_get_state(): number;
  asyncify_start_unwind(room: number): void;
  asyncify_stop_unwind(): void;
  asyncify_start_rewind(room: number): void;
  asyncify_stop_rewind(): void;
};

/** A goal of a clause's body, or of a query, with the place where it stands. */
export interface BodyGoal {
  sort: string; // true, call, unification or assignment
  call?: Term;
  left?: Term;
  right?: Term;
  place: { line: number; letter: number; endLine: number; endLetter: number };
}

/** A clause of an accepted program, as reader.mjs reads it. */
export interface Clause {
  number: number;
  line: number;
  letter: number;
  endLine: number;
  text: string;
  head: Compound;
  tests: { sort: string; text: string }[];
  body: BodyGoal[];
  goals: BodyGoal[]; // the body without `true`
  news: string[]; // the variables that a step by it makes
  name: string;
  arity: number;
  predicate: string;
}

/** What a typed line means: a command and its words, and the console's line for it; no name where none is meant. */
export interface Meaning {
  name?: string;
  words: string[];
  line: string;
  rest?: string; // what was typed after the name
  isWhole?: boolean; // all of the reply is to be shown
}

/** Why a text was refused, and where. */
export interface Cause {
  isQuery?: boolean;
  which: string;
  line: number;
  column: number;
  length: number;
  title: string;
  hints: string[];
}

/** A refusal of a program or a query: what ghcdb says, and what helps. */
export interface Refusal { said: string; lines: string[]; cause?: Cause }
