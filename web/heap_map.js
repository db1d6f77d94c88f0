// The heap as rows of cells, each of one unit or of several. Drawn as far as it is in view.
import { HEAP_START, UNIT } from "./image.js";

/** The widths of a cell, in pixels. Only a cell of one unit is wider than the first. */
const WIDTHS = [8, 12, 16, 24, 32, 48];
const WORDS = ["object", "buffer", "node", "index", "gap"];
/** The most pointers of one block that are drawn. */
const MOST_ARROWS = 500;

export class HeapMap {
  #box;
  #canvas;
  #spacer;
  #image = null;
  #scale = 1;
  #width = WIDTHS[0];
  #columns = 1;
  #changed = [];
  #arrows = [];
  #hovered = -1;
  #selected = -1;
  #frame = 0;
  #listeners;

  /** `onLook` is called with the index of the block that is hovered or selected, and `onOpen` with that of one to look into. */
  constructor(box, canvas, listeners) {
    this.#box = box;
    this.#canvas = canvas;
    this.#listeners = listeners;
    this.#spacer = document.createElement("div");
    box.append(this.#spacer);
    box.addEventListener("scroll", () => this.#draw());
    new ResizeObserver(() => this.#lay()).observe(box);
    matchMedia("(prefers-color-scheme: dark)").addEventListener("change", () => this.#draw());
    canvas.addEventListener("pointermove", (event) => this.#hover(this.#blockAt(event)));
    canvas.addEventListener("pointerleave", () => this.#hover(-1));
    canvas.addEventListener("click", (event) => this.select(this.#blockAt(event)));
    canvas.addEventListener("dblclick", (event) => this.#listeners.onOpen(this.#blockAt(event)));
    canvas.addEventListener("wheel", (event) => this.#wheel(event), { passive: false });
    canvas.addEventListener("keydown", (event) => this.#key(event));
  }

  /** The bytes of a cell. */
  get cellBytes() {
    return this.#scale * UNIT;
  }

  /** Shows an image's heap, with the scale at which all of it is in view. */
  show(image, changed = []) {
    const isOther = this.#image?.length !== image.length;
    this.#image = image;
    this.#changed = changed;
    this.#hovered = -1;
    this.#arrows = [];
    if (isOther) {
      this.#selected = -1;
      this.#fit();
      this.#box.scrollTop = 0;
    }
    this.#lay();
  }

  clear() {
    this.#image = null;
    this.#selected = -1;
    this.#lay();
  }

  /** Zooms in or out by a step, and keeps the selected block, or what is at the top, in view. */
  zoom(isIn) {
    const unit = this.#selected >= 0 ? this.#unitOf(this.#selected) : this.#firstRow * this.#columns * this.#scale;
    const largest = 2 ** Math.ceil(Math.log2(Math.max(1, this.#units / this.#columns)));
    const width = WIDTHS.indexOf(this.#width) + (isIn ? 1 : -1);
    if (this.#scale === 1 && width >= 0) {
      this.#width = WIDTHS[Math.min(width, WIDTHS.length - 1)];
    } else {
      this.#scale = Math.min(Math.max(isIn ? this.#scale / 2 : this.#scale * 2, 1), largest);
    }
    this.#lay();
    this.#scrollTo(unit);
  }

  /** The scale and the width of cells with which all of the heap is in view. */
  #fit() {
    this.#scale = 1;
    this.#width = WIDTHS.findLast((width) => this.#cellsInView(width) >= this.#units) ?? WIDTHS[0];
    this.#scale = 2 ** Math.max(0, Math.ceil(Math.log2(this.#units / this.#cellsInView(this.#width))));
  }

  #cellsInView(width) {
    const { clientWidth, clientHeight } = this.#box;
    return Math.max(1, Math.floor(clientWidth / width) * Math.floor(clientHeight / heightOf(width)));
  }

  select(index) {
    this.#selected = index;
    if (index >= 0) {
      this.#scrollTo(this.#unitOf(index));
    }
    this.#listeners.onLook(index);
    this.#draw();
  }

  /** Draws pointers: pairs of positions. */
  point(arrows) {
    this.#arrows = arrows.slice(0, MOST_ARROWS);
    this.#draw();
  }

  get #units() {
    return this.#image === null ? 0 : (this.#image.length - HEAP_START) / UNIT;
  }

  get #rows() {
    return Math.ceil(this.#units / (this.#columns * this.#scale));
  }

  get #firstRow() {
    return Math.floor(this.#box.scrollTop / this.#height);
  }

  get #height() {
    return heightOf(this.#width);
  }

  #unitOf(index) {
    return (this.#image.blocks.starts[index] - HEAP_START) / UNIT;
  }

  #lay() {
    this.#columns = Math.max(1, Math.floor(this.#box.clientWidth / this.#width));
    const height = this.#box.clientHeight;
    this.#spacer.style.height = `${Math.max(0, this.#rows * this.#height - height)}px`;
    this.#canvas.style.height = `${height}px`;
    this.#draw();
  }

  #scrollTo(unit) {
    const top = Math.floor(unit / (this.#columns * this.#scale)) * this.#height;
    const height = this.#box.clientHeight;
    if (top < this.#box.scrollTop || top + this.#height > this.#box.scrollTop + height) {
      this.#box.scrollTop = Math.max(0, top - height / 3);
    }
  }

  #blockAt({ offsetX, offsetY }) {
    if (this.#image === null) {
      return -1;
    }
    const column = Math.floor(offsetX / this.#width);
    const row = Math.floor((offsetY + this.#box.scrollTop) / this.#height);
    return column >= this.#columns ? -1 : this.#blockOfCell(row * this.#columns + column);
  }

  /** The block in the middle of a cell. */
  #blockOfCell(cell) {
    const unit = cell * this.#scale + Math.floor(this.#scale / 2);
    return this.#image.blocks.around(HEAP_START + unit * UNIT);
  }

  #hover(index) {
    if (index !== this.#hovered) {
      this.#hovered = index;
      this.#listeners.onLook(index < 0 ? this.#selected : index);
      this.#draw();
    }
  }

  #wheel(event) {
    if (event.ctrlKey) {
      event.preventDefault();
      this.zoom(event.deltaY < 0);
    }
  }

  #key(event) {
    const last = (this.#image?.blocks.length ?? 0) - 1;
    const actions = {
      ArrowRight: () => this.select(Math.min(this.#selected + 1, last)),
      ArrowLeft: () => this.select(Math.max(this.#selected - 1, 0)),
      ArrowDown: () => this.select(this.#blockInRow(1)),
      ArrowUp: () => this.select(this.#blockInRow(-1)),
      Home: () => this.select(Math.min(0, last)),
      End: () => this.select(last),
      "+": () => this.zoom(true),
      "-": () => this.zoom(false),
      Enter: () => this.#listeners.onOpen(this.#selected),
    };
    if (last >= 0 && Object.hasOwn(actions, event.key)) {
      event.preventDefault();
      actions[event.key]();
    }
  }

  /** The block `rows` rows below the start of the selected one. */
  #blockInRow(rows) {
    const unit = this.#selected < 0 ? 0 : this.#unitOf(this.#selected) + rows * this.#columns * this.#scale;
    const found = this.#image.blocks.around(HEAP_START + Math.max(unit, 0) * UNIT);
    return found < 0 ? this.#selected : found;
  }

  /** Draws before the next frame, once. */
  #draw() {
    cancelAnimationFrame(this.#frame);
    this.#frame = requestAnimationFrame(() => this.#drawNow());
  }

  #drawNow() {
    const { clientWidth: width, clientHeight: height } = this.#box;
    const ratio = devicePixelRatio;
    this.#canvas.width = width * ratio;
    this.#canvas.height = height * ratio;
    const context = this.#canvas.getContext("2d");
    context.scale(ratio, ratio);
    context.clearRect(0, 0, width, height);
    if (this.#image === null) {
      return;
    }
    const colours = new Colours(this.#canvas);
    const top = this.#box.scrollTop;
    const cells = Math.ceil(this.#units / this.#scale);
    const first = this.#firstRow * this.#columns;
    const last = Math.min(cells, first + Math.ceil(height / this.#height + 1) * this.#columns);
    let run = { block: -2, cell: first };
    for (let cell = first; cell <= last; cell++) {
      const block = cell < last ? this.#blockOfCell(cell) : -2;
      if (block !== run.block || cell % this.#columns === 0) {
        this.#drawRun(context, colours, run, cell, top);
        run = { block, cell };
      }
    }
    for (const [from, to] of this.#changed) {
      this.#frameCells(context, from, to, top, colours.of("changed"));
    }
    this.#frameBlock(context, this.#selected, top, colours.of("ink"), 2);
    this.#frameBlock(context, this.#hovered, top, colours.of("accent"), 2);
    this.#drawArrows(context, colours, top);
  }

  /** Draws the cells of a block in one row. */
  #drawRun(context, colours, { block, cell: from }, to, top) {
    if (block < 0 || from === to) {
      return;
    }
    const blocks = this.#image.blocks;
    const row = Math.floor(from / this.#columns);
    const next = HEAP_START + to * this.#scale * UNIT;
    const ends = this.#scale > 1 || next >= blocks.starts[block] + blocks.units(block) * UNIT;
    context.fillStyle = colours.of(blocks.word(block));
    context.fillRect(
      (from % this.#columns) * this.#width,
      row * this.#height - top,
      (to - from) * this.#width - (ends ? 1 : 0),
      this.#height - 2,
    );
  }

  #frameBlock(context, index, top, colour, width) {
    const blocks = this.#image.blocks;
    if (index >= 0 && index < blocks.length) {
      const from = blocks.starts[index];
      this.#frameCells(context, from, from + blocks.units(index) * UNIT, top, colour, width);
    }
  }

  /** Draws a frame around the cells of some bytes, row by row as far as they are in view. */
  #frameCells(context, from, to, top, colour, width = 2) {
    const first = Math.max(this.#cellOf(from), this.#firstRow * this.#columns);
    const last = this.#cellOf(to - 1);
    const rowsInView = this.#box.clientHeight / this.#height + 1;
    context.strokeStyle = colour;
    context.lineWidth = width;
    for (let cell = first, rows = 0; cell >= 0 && cell <= last && rows <= rowsInView; rows++) {
      const row = Math.floor(cell / this.#columns);
      const end = Math.min(last + 1, (row + 1) * this.#columns);
      context.strokeRect(
        (cell % this.#columns) * this.#width,
        row * this.#height - top - 0.5,
        (end - cell) * this.#width - 1,
        this.#height - 1,
      );
      cell = end;
    }
  }

  #drawArrows(context, colours, top) {
    context.strokeStyle = context.fillStyle = colours.of("ink");
    context.lineWidth = 1.5;
    for (const [from, to] of this.#arrows) {
      const start = this.#middleOf(from, top);
      const end = this.#middleOf(to, top);
      drawArrow(context, start, end);
    }
  }

  #cellOf(position) {
    return Math.floor((position - HEAP_START) / UNIT / this.#scale);
  }

  /** The middle of the cell with a position; of the table and the header above the first row. */
  #middleOf(position, top) {
    if (position < HEAP_START) {
      return { x: 4, y: -top - 4 };
    }
    const cell = this.#cellOf(position);
    return {
      x: ((cell % this.#columns) + 0.5) * this.#width,
      y: (Math.floor(cell / this.#columns) + 0.5) * this.#height - top - 1,
    };
  }
}

/** The height of a cell with a width. */
function heightOf(width) {
  return Math.round(width * 1.5) + 2;
}

/** The page's colours, which depend on light and dark. */
class Colours {
  #style;

  constructor(target) {
    this.#style = getComputedStyle(target);
  }

  of(name) {
    return this.#style.getPropertyValue(`--${name}`);
  }
}

function drawArrow(context, start, end) {
  const bend = { x: (start.x + end.x) / 2 + (start.y - end.y) / 6, y: (start.y + end.y) / 2 - Math.abs(end.x - start.x) / 8 - 6 };
  const angle = Math.atan2(end.y - bend.y, end.x - bend.x);
  context.beginPath();
  context.moveTo(start.x, start.y);
  context.quadraticCurveTo(bend.x, bend.y, end.x, end.y);
  context.stroke();
  context.beginPath();
  context.moveTo(end.x, end.y);
  for (const side of [-0.45, 0.45]) {
    context.lineTo(end.x - 7 * Math.cos(angle + side), end.y - 7 * Math.sin(angle + side));
  }
  context.fill();
}

/** The words of the map, in the order of the legend. */
export const MAP_WORDS = WORDS;
