// Some of an image's bytes, in hexadecimal and as characters.
import { element } from "./elements.js";

const ROW = 16;
const ROWS = 32;
/** The rows above a byte that is gone to. */
const ROWS_ABOVE = 4;

export class ByteView {
  #target;
  #image = null;
  #first = 0;
  #marks = [];

  constructor(target) {
    this.#target = target;
  }

  /** Shows an image at a byte, or where the view is. `marks` are ranges of bytes: from, to, and a class. */
  show(image, marks, at = this.#first + ROWS_ABOVE * ROW) {
    this.#image = image;
    this.#marks = marks;
    this.goTo(at);
  }

  clear() {
    this.#image = null;
    this.#target.replaceChildren();
  }

  get first() {
    return this.#first;
  }

  /** Shows a byte, in the upper part of the view. */
  goTo(at) {
    const last = Math.max(0, Math.ceil((this.#image?.length ?? 0) / ROW) - ROWS);
    const row = Math.min(Math.max(Math.floor(at / ROW) - ROWS_ABOVE, 0), last);
    this.#first = row * ROW;
    this.#draw();
  }

  /** Goes on or back by what is shown. */
  turn(pages) {
    this.goTo(this.#first + (ROWS_ABOVE + pages * ROWS) * ROW);
  }

  #draw() {
    this.#target.replaceChildren();
    if (this.#image === null) {
      return;
    }
    const end = Math.min(this.#image.length, this.#first + ROW * ROWS);
    for (let at = this.#first; at < end; at += ROW) {
      this.#target.append(...this.#row(at), "\n");
    }
  }

  #row(at) {
    const bytes = this.#image.bytes.subarray(at, at + ROW);
    const hexadecimal = this.#cells(at, bytes, (byte) => byte.toString(16).padStart(2, "0"), " ");
    const characters = this.#cells(at, bytes, (byte) => (byte >= 0x20 && byte <= 0x7e ? String.fromCharCode(byte) : "."), "");
    const padding = " ".repeat(3 * (ROW - bytes.length));
    return [`${String(at).padStart(10)}  `, ...hexadecimal, `${padding}  `, ...characters];
  }

  /** The bytes as texts, of which the marked ones are elements. */
  #cells(at, bytes, text, separator) {
    const cells = [];
    bytes.forEach((byte, index) => {
      const mark = this.#markAt(at + index);
      const before = index === 0 ? "" : separator;
      if (mark === undefined) {
        cells.push(before + text(byte));
      } else {
        cells.push(before, element("mark", { className: mark, title: `byte ${at + index}` }, text(byte)));
      }
    });
    return cells;
  }

  #markAt(at) {
    return this.#marks.find(({ from, to }) => at >= from && at < to)?.kind;
  }
}
