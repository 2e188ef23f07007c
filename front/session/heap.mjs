// The heap of the engine: blocks of the module's memory, which the program asks for, resizes and gives back.
//
// A block stands after a head of 4 bytes, which names its class; its place is a multiple of 16. Blocks of one class have one
// size. A block that was given back is the first of its class to be taken again: its first 4 bytes name the next such block.
const PAGE = 65536;
const UNIT = 16;
const HEAD = 4;
const EXACT_CLASSES = 64; // classes of 1, 2, .. 64 units; above them there are four classes between a power of two and the next
const PAGES_AT_ONCE = 64;
const MOST = 2 ** 32 - PAGE; // bytes of a block; no memory has more

// The class of the least blocks that hold so many bytes, MOST at most.
function classOf(bytes) {
  const units = Math.max(1, Math.ceil((bytes + HEAD) / UNIT));
  if (units <= EXACT_CLASSES) return units;
  const power = 31 - Math.clz32(units - 1);
  const quarter = Math.floor((units - 1 - 2 ** power) / 2 ** (power - 2));
  return EXACT_CLASSES + (power - 6) * 4 + quarter + 1;
}

// How many units the blocks of a class have, their heads included.
function unitsOf(kind) {
  if (kind <= EXACT_CLASSES) return kind;
  const above = kind - EXACT_CLASSES - 1;
  const power = Math.floor(above / 4) + 6;
  return 2 ** power + (above % 4 + 1) * 2 ** (power - 2);
}

class Heap {
  // A heap of the memory from a place on.
  constructor(memory, base) {
    this.memory = memory;
    this.findWords();
    this.end = Math.ceil((base + HEAD) / UNIT) * UNIT; // where the next new block goes
    this.spare = []; // for each class the block that was given back last
  }

  // The memory's words, which are others when it has grown.
  findWords() {
    this.words = new Uint32Array(this.memory.buffer);
  }

  // Makes the memory reach up to a place; false where it cannot.
  grow(place) {
    const size = this.words.length * 4;
    if (place <= size) return true;
    const wanted = Math.ceil((place - size) / PAGE);
    for (const pages of [Math.max(wanted, PAGES_AT_ONCE), wanted]) {
      try {
        this.memory.grow(pages);
        this.findWords();
        return true;
      } catch {
        continue;
      }
    }
    return false;
  }

  // The place of a new block of so many bytes, or 0 where there is no memory.
  take(bytes) {
    if (bytes > MOST) return 0;
    const kind = classOf(bytes);
    const spare = this.spare[kind];
    if (spare) {
      this.spare[kind] = this.words[spare >>> 2];
      return spare;
    }
    const place = this.end;
    const end = place + unitsOf(kind) * UNIT;
    if (!this.grow(end)) return 0;
    this.end = end;
    this.words[(place - HEAD) >>> 2] = kind;
    return place;
  }

  // Takes a block back.
  give(place) {
    const kind = this.words[(place - HEAD) >>> 2];
    this.words[place >>> 2] = this.spare[kind] || 0;
    this.spare[kind] = place;
  }

  // The place of a block of so many bytes that begins with what is kept of another, which is given back; 0 where there is no
  // memory, and then the other stays.
  resize(place, kept, bytes) {
    const kind = this.words[(place - HEAD) >>> 2];
    if (bytes <= MOST && classOf(bytes) === kind) return place;
    const moved = this.take(bytes);
    if (moved === 0) return 0;
    new Uint8Array(this.memory.buffer).copyWithin(moved, place, place + Math.min(kept, bytes));
    this.give(place);
    return moved;
  }
}

Heap.classOf = classOf;
Heap.unitsOf = unitsOf;

export default Heap;
