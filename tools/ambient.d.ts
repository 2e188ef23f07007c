// What tsc does not know of where tools/lint lets it read JavaScript: Node, the page's scripts, streams that pack, and
// lists as Node 18 has them.
declare module "node:*";
declare const process: any;
declare const Buffer: any;
declare class CompressionStream extends TransformStream { constructor(format: string) }
declare class DecompressionStream extends TransformStream { constructor(format: string) }
declare const MODULE: string; // this and the next two are of scripts that web/build puts into the page
declare const EXAMPLES: { name: string; program: string }[];
declare const MADE_WITH: { commit: string; kit: string; proved: boolean };
interface Element extends HTMLOrSVGElement, ElementCSSInlineStyle {} // the page has no others
interface Document {
  caretPositionFromPoint?(x: number, y: number): { offsetNode: Node; offset: number } | null;
}
interface Array<T> {
  findLast(wanted: (value: T, index: number) => unknown): T | undefined;
  findLastIndex(wanted: (value: T, index: number) => unknown): number;
}
