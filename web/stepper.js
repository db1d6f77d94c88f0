// A run one instruction at a time, forth and back: each place in time is reached by running again from the start.
import { STOPPED } from "./lezgauri.js";
import { differences } from "./image.js";
import { decoded, traceOf } from "./printed.js";

/** How many instructions of a trace are read at once. */
const WINDOW = 256;

/** How many instructions of one line are performed at once, at most. */
const MOST_OF_LINE = 10_000;

/** How many bytes of images are kept, besides those of the last two. */
const MOST_IMAGE_BYTES = 128 * 1024 * 1024;

export class Run {
  #calls;
  #job;
  #windows = new Map();
  #images = new Map();
  #start;

  /** A run of a client, a program or a text on an image that the module accepts. */
  constructor(calls, image, source, input) {
    this.#calls = calls;
    this.#job = [image, source, input];
    this.#start = image;
    /** How many instructions are performed at least, and whether there are no more. */
    this.known = 0;
    this.isWhole = false;
  }

  /** The instruction performed as number `index`, from 0, or null if the run ends before it. */
  async performed(index) {
    const number = Math.floor(index / WINDOW);
    if (!this.#windows.has(number)) {
      this.#windows.set(number, await this.#read(number * WINDOW));
    }
    return this.#windows.get(number)[index % WINDOW] ?? null;
  }

  async #read(from, to = from + WINDOW) {
    const { status, text } = await this.#calls.make("trace", ...this.#job, from, to);
    if (status !== 0 && status !== STOPPED) {
      throw new Error(decoded(text));
    }
    const performed = traceOf(decoded(text));
    const isEnd = status === 0 && (performed.length > 0 || from === this.known);
    if (performed.length > 0) {
      this.known = Math.max(this.known, from + performed.length);
    }
    this.isWhole ||= isEnd;
    return performed;
  }

  /** The number of instructions after which the line of instruction `index` is left, or many of the line are performed. */
  async endOfLine(index) {
    const line = (await this.performed(index))?.line;
    let end = index;
    do {
      end += 1;
    } while (end < index + MOST_OF_LINE && (await this.performed(end))?.line === line);
    return end;
  }

  /** How many instructions are performed, at most `most`. */
  async end(most) {
    while (!this.isWhole && this.known < most) {
      // twice as many each time, since each time the client runs from the start
      await this.#read(this.known, Math.min(most, Math.max(this.known + 64 * WINDOW, 2 * this.known)));
    }
    return Math.min(this.known, most);
  }

  /** The image after `count` instructions. */
  async image(count) {
    if (count === 0) {
      return this.#start;
    }
    if (!this.#images.has(count)) {
      const { status, text, file } = await this.#calls.make("imageAfter", ...this.#job, count);
      if (status !== 0) {
        throw new Error(decoded(text));
      }
      this.#images.set(count, file);
      // their lengths are equal
      if (this.#images.size > 2 && this.#images.size * file.length > MOST_IMAGE_BYTES) {
        this.#images.delete(this.#images.keys().next().value);
      }
    }
    return this.#images.get(count);
  }

  /** The ranges of bytes that instruction number `count`, counted from 1, changed. */
  async changes(count) {
    if (count === 0) {
      return [];
    }
    return differences(await this.image(count - 1), await this.image(count));
  }
}
