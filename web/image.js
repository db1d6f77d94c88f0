// Reads an image's bytes for pictures, by docs/FORMATS.md. What is right about an image is the module's to tell: this reads any
// bytes, and stops where they make no sense.

export const UNIT = 16;
export const HEAP_START = 704;
const TYPES_START = 64;
const UNIQUES_START = 576;
const MOST_TYPES = 32;
const SHORTEST = 736;
/** No path of a sound tree is longer. */
const DEEPEST = 60;

export const BlockKind = Object.freeze({
  FREE: 0,
  NAMED: 1,
  OBJECT: 2,
  BUFFER: 3,
  NODE: 4,
  INDEX_BUFFER: 5,
  INDEX_NODE: 6,
  FROZEN: 7,
});

const TYPE_WORDS = ["none", "i64", "str", "vec", "list", "flat_map", "map", "own", "struct", "shared"];

/** The fields of the header: the position of each, and its length. */
const HEADER_FIELDS = [
  [0, 8, "the first 8 bytes"],
  [8, 4, "the version"],
  [12, 4, "the length in units"],
  [16, 4, "the allocator"],
  [20, 4, "the index"],
  [24, 4, "the pointer to the free blocks"],
  [28, 4, "the number for the next frozen object"],
  [32, 8, "the index cell"],
  [40, 24, "reserved"],
];

export class ImageBytes {
  #view;
  #types;
  #blocks;

  constructor(bytes) {
    this.bytes = bytes;
    this.#view = new DataView(bytes.buffer, bytes.byteOffset, bytes.byteLength);
  }

  get length() {
    return this.bytes.length;
  }

  /** The number of 32 bits at a position; 0 outside the image. */
  word(at) {
    return at >= 0 && at + 4 <= this.length ? this.#view.getUint32(at, true) : 0;
  }

  get version() {
    return this.word(8);
  }

  get isBestFit() {
    return this.word(16) === 1;
  }

  get hasTreeIndex() {
    return this.word(20) === 1;
  }

  /** The position that the pointer at a position points to, or null. */
  target(at) {
    if (at < 0 || at + 4 > this.length) {
      return null;
    }
    const distance = this.#view.getInt32(at, true);
    const to = at + distance;
    return distance === 1 || to < 0 || to >= this.length ? null : to;
  }

  /** The types that are used, each with its `word`, its `components` and the `size` of a value in bytes. */
  get types() {
    this.#types ??= this.#readTypes();
    return this.#types;
  }

  #readTypes() {
    const types = [];
    for (let number = 0; number < MOST_TYPES && this.length >= SHORTEST; number++) {
      const at = TYPES_START + number * UNIT;
      const word = TYPE_WORDS[this.bytes[at]];
      if (word === undefined || word === "none") {
        break;
      }
      const components = [...this.bytes.subarray(at + 2, at + 2 + Math.min(this.bytes[at + 1], 8))];
      const size = word === "struct" ? components.reduce((sum, it) => sum + (types[it]?.size ?? 0), 0) : 8;
      types.push({ word, components, size });
    }
    return types;
  }

  /** A type as a text declares it. */
  typeText(number) {
    const type = this.types[number];
    return type === undefined ? `t${number}` : [type.word, ...type.components.map((it) => `t${it}`)].join(" ");
  }

  /** The blocks of the heap in ascending order, as lists of equal length, up to the first header that makes no sense. */
  get blocks() {
    this.#blocks ??= this.#readBlocks();
    return this.#blocks;
  }

  #readBlocks() {
    const starts = [];
    let at = HEAP_START;
    while (at + 2 * UNIT <= this.length) {
      const bytes = (this.word(at) & 0x7fffffff) * UNIT;
      if (bytes < 2 * UNIT || at + bytes > this.length) {
        break;
      }
      starts.push(at);
      at += bytes;
    }
    return new Blocks(this, new Uint32Array(starts), at);
  }

  /** The named objects, in order: the name, the type, the number of values, and the positions of the entry and of the object. */
  names() {
    return this.hasTreeIndex ? this.#treeNames() : this.#flatNames();
  }

  #flatNames() {
    const buffer = this.target(32);
    const room = buffer === null ? 0 : (this.word(buffer - UNIT) & 0x7fffffff) * 2 - 2;
    const count = Math.min(this.word(36), Math.max(room, 0), this.length / 8);
    return buffer === null ? [] : Array.from({ length: count }, (_, index) => this.#entry(buffer + 8 * index));
  }

  #treeNames() {
    const names = [];
    const path = [];
    let node = this.target(32);
    for (let left = this.length / UNIT; left > 0 && (node !== null || path.length > 0); left--) {
      while (node !== null && path.length < DEEPEST) {
        path.push(node);
        node = this.target(node);
      }
      node = path.pop();
      names.push(this.#entry(node + UNIT));
      node = this.target(node + 4);
    }
    return names;
  }

  #entry(entry) {
    const object = this.target(entry);
    const count = this.word(entry + 4) & 0xffff;
    const length = this.bytes[entry + 6] ?? 0;
    const type = object === null ? 0 : (this.bytes[object - 7] ?? 0);
    const from = (object ?? 0) + count * (this.types[type]?.size ?? 0);
    return { name: String.fromCharCode(...this.bytes.subarray(from, from + length)), type, count, entry, object };
  }

  /** The object that `map` and `show` call by a name, as `find` returns it, or null. */
  object(name) {
    const [, kind, number] = /^(unique t|frozen )(\d+)$/.exec(name) ?? [];
    if (kind === undefined) {
      const found = this.names().find((it) => it.name === name);
      return found?.object == null ? null : { at: found.object, type: found.type, count: found.count };
    }
    if (kind === "unique t") {
      const at = this.target(UNIQUES_START + 4 * Number(number));
      return at === null ? null : { at, type: Number(number), count: 1 };
    }
    const payload = this.blocks.frozen(Number(number));
    return payload === null ? null : { at: payload + 8, type: this.bytes[payload - 7], count: 1 };
  }

  /** The pointers in an object and in all that it owns, as pairs of positions; about `most` at most. */
  pointersOf({ at, type, count }, most = 200_000) {
    const pointers = [];
    const seen = new Set();
    const values = [];
    const size = this.types[type]?.size ?? 0;
    for (let index = 0; index < count; index++) {
      values.push([at + index * size, type]);
    }
    while (values.length > 0 && pointers.length < most) {
      this.#follow(...values.pop(), { pointers, values, seen, most });
    }
    return pointers;
  }

  /** Adds the pointers of a value, and the values that it points to. */
  #follow(at, number, found) {
    const type = this.types[number];
    if (type?.word === "struct") {
      let field = at;
      for (const component of type.components) {
        this.#follow(field, component, found);
        field += this.types[component]?.size ?? 0;
      }
      return;
    }
    const to = type === undefined || type.word === "i64" ? null : this.target(at);
    if (to === null) {
      return;
    }
    found.pointers.push([at, to]);
    const [component] = type.components;
    const count = Math.min(this.word(at + 4), this.length / 8);
    if (type.word === "vec" || type.word === "flat_map") {
      const before = type.word === "vec" ? 0 : 8;
      const step = before + (this.types[component]?.size ?? 8);
      for (let index = 0; index < count; index++) {
        found.values.push([to + index * step + before, component]);
      }
    } else if (type.word === "list" || type.word === "map") {
      this.#followNodes(to, type.word, component, found);
    } else if (type.word === "own") {
      found.values.push([to, component]);
    }
    // the object of a shared is shown as an object of its own
  }

  #followNodes(first, word, component, { pointers, values, seen, most }) {
    const nodes = [first];
    while (nodes.length > 0 && pointers.length < most) {
      const node = nodes.pop();
      if (seen.has(node)) {
        continue;
      }
      seen.add(node);
      values.push([node + (word === "list" ? 8 : 24), component]);
      for (const pointer of [node, node + 4]) {
        const to = this.target(pointer);
        if (to !== null) {
          pointers.push([pointer, to]);
          nodes.push(to);
        }
      }
    }
  }

  /** The pointers of the index. */
  indexPointers() {
    const pointers = this.names().map(({ entry, object }) => [entry, object]);
    if (this.hasTreeIndex) {
      for (const { entry } of this.names()) {
        pointers.push([entry - UNIT, this.target(entry - UNIT)], [entry - UNIT + 4, this.target(entry - UNIT + 4)]);
      }
    }
    return pointers.filter(([, to]) => to !== null);
  }

  /** The pointers by which the allocator finds free blocks, in the free block with its header at a position. */
  freePointers(block) {
    const pointers = this.isBestFit ? [block + UNIT, block + UNIT + 4] : [block + 12];
    return pointers.map((from) => [from, this.target(from)]).filter(([, to]) => to !== null);
  }

  /** The field of the header, the table's entry or the block that contains a position, in words. */
  describe(at) {
    const field = HEADER_FIELDS.find(([from, length]) => at >= from && at < from + length);
    if (field !== undefined) {
      return `header: ${field[2]}`;
    }
    if (at < UNIQUES_START) {
      return `type table: entry of t${Math.floor((at - TYPES_START) / UNIT)}`;
    }
    if (at < HEAP_START) {
      return `unique table: pointer of t${Math.floor((at - UNIQUES_START) / 4)}`;
    }
    const index = this.blocks.around(at);
    if (index < 0) {
      return "heap: in no block that the headers before it describe";
    }
    const offset = at - this.blocks.starts[index];
    const part = offset < UNIT ? `byte ${offset} of the header` : `byte ${offset - UNIT} of the payload`;
    return `block at ${this.blocks.starts[index]}, ${this.blocks.word(index)}: ${part}`;
  }
}

/** The blocks of a heap. */
class Blocks {
  #image;

  constructor(image, starts, end) {
    this.#image = image;
    this.starts = starts;
    /** Where the last block ends. */
    this.end = end;
  }

  get length() {
    return this.starts.length;
  }

  units(index) {
    return this.#image.word(this.starts[index]) & 0x7fffffff;
  }

  /** The kind of a block, as in its tag. */
  kind(index) {
    const start = this.starts[index];
    return this.#image.word(start) >>> 31 === 0 ? BlockKind.FREE : this.#image.bytes[start + 8];
  }

  type(index) {
    return this.#image.bytes[this.starts[index] + 9];
  }

  /** The word that `segtool map` prints for a block. */
  word(index) {
    switch (this.kind(index)) {
      case BlockKind.FREE:
        return "gap";
      case BlockKind.BUFFER:
        return "buffer";
      case BlockKind.NODE:
        return "node";
      case BlockKind.INDEX_BUFFER:
      case BlockKind.INDEX_NODE:
        return "index";
      default:
        return "object";
    }
  }

  /** The index of the block that contains a position, or -1. */
  around(at) {
    if (at < HEAP_START || at >= this.end) {
      return -1;
    }
    let low = 0;
    let high = this.length;
    while (high - low > 1) {
      const middle = (low + high) >>> 1;
      if (this.starts[middle] <= at) {
        low = middle;
      } else {
        high = middle;
      }
    }
    return low;
  }

  /** The payload of the frozen object with a number, or null. */
  frozen(number) {
    for (let index = 0; index < this.length; index++) {
      const payload = this.starts[index] + UNIT;
      if (this.kind(index) === BlockKind.FROZEN && this.#image.word(payload + 4) === number) {
        return payload;
      }
    }
    return null;
  }
}

/** The parts of two images of equal length that differ, as pairs of positions, from and to; at most `most`. */
export function differences(before, after, most = 1000) {
  const found = [];
  const length = Math.min(before.length, after.length);
  for (let at = 0; at < length && found.length < most; at++) {
    if (before[at] !== after[at]) {
      const from = at;
      while (at < length && before[at] !== after[at]) {
        at++;
      }
      found.push([from, at]);
    }
  }
  return found;
}
