// The module: loads it, lends it memory, and makes its calls. Works in a page, in a worker, and in Node.

/** What a call returns if no object has the name that was asked for. */
export const ABSENT = 100;

/** What a call returns if its output was stopped. */
export const STOPPED = 101;

/** What a call returns if the program has errors. */
export const WRONG = 102;

/** The least module with a 64-bit memory. */
const TINY_MODULE = Uint8Array.of(0, 0x61, 0x73, 0x6d, 1, 0, 0, 0, 5, 3, 1, 4, 0);

const PAGE_BYTES = 65536;

/** Each block begins with its size. Blocks are aligned to as much. */
const HEADER_BYTES = 16;

/** Whether this engine runs modules with a 64-bit memory. */
export function hasMemory64() {
  return typeof WebAssembly === "object" && WebAssembly.validate(TINY_MODULE);
}

/** The module's memory above its own data: what the module allocates, and the bytes that calls are given. */
class LentMemory {
  #memory;
  #start;
  #end;
  #free = new Map();

  constructor(memory, start) {
    this.#memory = memory;
    this.#start = Math.ceil(start / HEADER_BYTES) * HEADER_BYTES;
    this.#end = this.#start;
  }

  allocate(size) {
    const whole = roundedSize(size + HEADER_BYTES);
    const block = this.#free.get(whole)?.pop() ?? this.#extend(whole);
    new DataView(this.#memory.buffer).setFloat64(block, whole, true);
    return block + HEADER_BYTES;
  }

  release(pointer) {
    const block = pointer - HEADER_BYTES;
    const whole = new DataView(this.#memory.buffer).getFloat64(block, true);
    if (block + whole === this.#end) {
      this.#end = block;
    } else if (this.#free.has(whole)) {
      this.#free.get(whole).push(block);
    } else {
      this.#free.set(whole, [block]);
    }
  }

  /** Frees everything. */
  clear() {
    this.#end = this.#start;
    this.#free.clear();
  }

  put(bytes) {
    const pointer = this.allocate(bytes.length);
    new Uint8Array(this.#memory.buffer, pointer, bytes.length).set(bytes);
    return pointer;
  }

  /** The bytes at a pointer, until the module runs on. */
  slice(pointer, length) {
    return new Uint8Array(this.#memory.buffer, pointer, length);
  }

  #extend(whole) {
    const block = this.#end;
    const lacking = block + whole - this.#memory.buffer.byteLength;
    if (lacking > 0) {
      grow(this.#memory, Math.ceil(lacking / PAGE_BYTES));
    }
    this.#end = block + whole;
    return block;
  }
}

/** The size of the block for a request: few sizes, so that freed blocks fit later requests. */
function roundedSize(size) {
  if (size > PAGE_BYTES) {
    return Math.ceil(size / PAGE_BYTES) * PAGE_BYTES;
  }
  return Math.max(2 * HEADER_BYTES, 2 ** Math.ceil(Math.log2(size)));
}

/** Grows a memory by whole pages. Older engines count them in a number. */
function grow(memory, pages) {
  try {
    memory.grow(BigInt(pages));
  } catch (error) {
    if (!(error instanceof TypeError)) {
      throw error;
    }
    memory.grow(pages);
  }
}

function encoded(text) {
  return new TextEncoder().encode(text);
}

/** Bytes that are added at the end. */
class ByteList {
  #bytes = new Uint8Array(1024);
  #length = 0;

  get length() {
    return this.#length;
  }

  add(bytes) {
    const length = this.#length + bytes.length;
    if (length > this.#bytes.length) {
      const larger = new Uint8Array(Math.max(length, 2 * this.#bytes.length));
      larger.set(this.#bytes.subarray(0, this.#length));
      this.#bytes = larger;
    }
    this.#bytes.set(bytes, this.#length);
    this.#length = length;
  }

  toBytes() {
    return this.#bytes.slice(0, this.#length);
  }
}

/**
 * The calls of the module. Each returns an answer: its `status`, which is 0, the number of a fault, `ABSENT`, `STOPPED` or `WRONG`; its
 * `text`, the bytes that `segtool` prints; and its `file`, the bytes that `segtool` writes, or null. After a fault the text is the
 * fault's line and explanation, and after `WRONG` the errors of the program. A call throws only if the engine has no memory, and the
 * next call can be made.
 *
 * A source is a client, a program or an assembler text: its `name`, which ends in `.lez` for a program and in `.text` for a text, and
 * its `bytes`. An image that was checked before needn't be checked again for some calls; then its first 704 bytes are enough.
 */
export class Lezgauri {
  #module;
  #exports;
  #memory;
  #text;
  #file;
  #mostText;

  /** The calls of a compiled module. Texts have at most about `mostText` bytes. */
  constructor(module, { mostText = 256 * 1024 * 1024 } = {}) {
    this.#module = module;
    this.#mostText = mostText;
    this.#instantiate();
  }

  /** The image of an empty segment. The numbers are those of the image's header. */
  create(size, allocator, index) {
    return this.#call("lezgauri_new", size, allocator, index);
  }

  check(image) {
    return this.#call("lezgauri_check", image);
  }

  stat(image) {
    return this.#call("lezgauri_stat", image);
  }

  types(image) {
    return this.#call("lezgauri_types", image);
  }

  list(image) {
    return this.#call("lezgauri_list", image);
  }

  map(image) {
    return this.#call("lezgauri_map", image);
  }

  /** The values of all objects, or of the object with a name. */
  show(image, { name = "", whole = false } = {}) {
    return this.#call("lezgauri_show", image, encoded(name), Number(whole));
  }

  /** The client of a program for an image's types, or for no types if the image is empty. The text has the warnings. */
  compile({ name, bytes }, image, { checked = false } = {}) {
    return this.#call("lezgauri_compile", encoded(name), bytes, image, Number(checked));
  }

  assemble(text) {
    return this.#call("lezgauri_assemble", text);
  }

  print(client) {
    return this.#call("lezgauri_print", client);
  }

  /** The most steps of a source's client, and what each line costs. */
  verify(image, { name, bytes }, { checked = false } = {}) {
    return this.#call("lezgauri_verify", image, encoded(name), bytes, Number(checked));
  }

  run(image, { name, bytes }, input) {
    return this.#call("lezgauri_run", image, encoded(name), bytes, input);
  }

  /** The lines of a trace for the instructions performed from one number to before another. */
  trace(image, { name, bytes }, input, from, to) {
    return this.#call("lezgauri_trace", image, encoded(name), bytes, input, BigInt(from), BigInt(to));
  }

  /** The image after a run has performed `count` instructions. */
  imageAfter(image, { name, bytes }, input, count) {
    return this.#call("lezgauri_image_after", image, encoded(name), bytes, input, BigInt(count));
  }

  #call(name, ...values) {
    this.#text = new ByteList();
    this.#file = null;
    try {
      const status = this.#exports[name](...values.flatMap((value) => this.#passed(value)));
      this.#memory.clear();
      return { status, text: this.#text.toBytes(), file: this.#file };
    } catch (error) {
      // the module may not be called again
      this.#instantiate();
      throw error;
    }
  }

  /** The words that pass a value: of bytes their position and their number. */
  #passed(value) {
    if (value instanceof Uint8Array) {
      return [BigInt(this.#memory.put(value)), BigInt(value.length)];
    }
    return [value];
  }

  #instantiate() {
    const host = {
      host_alloc: (size) => BigInt(this.#memory.allocate(Number(size))),
      host_free: (pointer) => this.#memory.release(Number(pointer)),
      host_text: (pointer, length) => this.#takeText(Number(pointer), Number(length)),
      host_file: (pointer, length) => {
        this.#file = this.#memory.slice(Number(pointer), Number(length)).slice();
      },
    };
    this.#exports = new WebAssembly.Instance(this.#module, { host }).exports;
    this.#memory = new LentMemory(this.#exports.memory, Number(this.#exports.__heap_base.value));
  }

  #takeText(pointer, length) {
    if (this.#text.length + length > this.#mostText) {
      return 0;
    }
    this.#text.add(this.#memory.slice(pointer, length));
    return 1;
  }
}
