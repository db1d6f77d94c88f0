// The text of a program or a client, with line numbers, the steps of lines, and problems at their lines.
import { element } from "./elements.js";

/** The most problems that are drawn: more would make typing slow. */
const MOST_DRAWN = 50;

const SIGNS = { error: "✗ ", warning: "! " };

/** Numbers of steps in few characters. */
const SHORT = new Intl.NumberFormat("en", { notation: "compact", maximumFractionDigits: 1 });

export class Editor {
  #text;
  #gutter;
  #marks;
  #steps = new Map();
  #problems = [];
  #currentLine = null;

  constructor({ text, gutter, marks }, onChange) {
    this.#text = text;
    this.#gutter = gutter;
    this.#marks = marks;
    text.addEventListener("input", () => {
      this.clearMarks();
      onChange();
    });
    text.addEventListener("scroll", () => this.#place());
    new ResizeObserver(() => this.#place()).observe(text);
    this.#number();
  }

  get value() {
    return this.#text.value;
  }

  set value(text) {
    this.#text.value = text;
    this.#text.scrollTo(0, 0);
    this.clearMarks();
  }

  clearMarks() {
    this.#steps = new Map();
    this.#problems = [];
    this.#currentLine = null;
    this.#number();
  }

  /** Shows the most steps of lines, by their numbers, and problems. */
  show(steps, problems) {
    this.#steps = steps;
    this.#problems = problems;
    this.#number();
  }

  /** Marks the line of an instruction, or none. */
  showCurrent(line) {
    this.#currentLine = line;
    this.#number();
    if (line !== null) {
      const { lineHeight } = this.#measures();
      const top = (line - 1) * lineHeight;
      if (top < this.#text.scrollTop || top + 2 * lineHeight > this.#text.scrollTop + this.#text.clientHeight) {
        this.#text.scrollTop = Math.max(0, top - this.#text.clientHeight / 3);
      }
    }
  }

  /** Moves the cursor to a column of a line. */
  goTo(line, column) {
    const lines = this.#text.value.split("\n");
    const before = lines.slice(0, line - 1).reduce((sum, it) => sum + it.length + 1, 0);
    const at = before + [...(lines[line - 1] ?? "")].slice(0, column - 1).join("").length;
    this.#text.focus();
    this.#text.setSelectionRange(at, at);
  }

  #number() {
    const count = this.#text.value.split("\n").length;
    const lines = Array.from({ length: count }, (_, index) => this.#label(index + 1));
    this.#gutter.textContent = lines.join("\n");
    this.#text.ariaInvalid = String(this.#problems.some(({ kind }) => kind === "error"));
    this.#place();
  }

  #label(line) {
    const steps = this.#steps.get(line);
    const problem = this.#problems.find((it) => it.line === line);
    const sign = line === this.#currentLine ? "▶ " : problem === undefined ? "" : SIGNS[problem.kind];
    return `${steps === undefined ? "" : `${SHORT.format(steps)}  `}${sign}${String(line).padStart(3)}`;
  }

  /** Moves the gutter and the problems along with the text. */
  #place() {
    this.#gutter.style.height = `${this.#text.offsetHeight}px`;
    this.#gutter.scrollTop = this.#text.scrollTop;
    const measures = this.#measures();
    const lines = this.#text.value.split("\n");
    const marks = this.#problems.slice(0, MOST_DRAWN).map((problem) => this.#mark(problem, lines, measures));
    this.#marks.replaceChildren(...marks.filter((it) => it !== null));
  }

  /**
   * A line under what a problem is about, and its message at the end of the text's line, unless another problem has that place. Null
   * if it isn't in view.
   */
  #mark(problem, lines, { lineHeight, paddingTop, paddingLeft, characterWidth, tabSize }) {
    const { line, column, width, kind, message } = problem;
    const top = paddingTop + line * lineHeight - this.#text.scrollTop;
    if (top < 0 || top > this.#text.clientHeight) {
      return null;
    }
    const columns = (text) => widthOf([...text], tabSize);
    const left = (column) => `${paddingLeft + column * characterWidth - this.#text.scrollLeft}px`;
    const before = [...(lines[line - 1] ?? "")].slice(0, column - 1).join("");
    const caret = element("span", { className: "caret" });
    caret.style.left = left(columns(before));
    caret.style.width = `${Math.max(1, width) * characterWidth}px`;
    const mark = element("div", { className: `mark ${kind}` }, caret);
    mark.style.top = `${top}px`;
    if (this.#problems.find((it) => it.line === line) === problem) {
      const words = element("span", { className: "words" }, message);
      words.style.marginTop = `${-lineHeight}px`;
      words.style.marginLeft = `max(0px, min(${left(columns(lines[line - 1] ?? "") + 2)}, 100% - 14rem))`;
      mark.append(words);
    }
    return mark;
  }

  #measures() {
    const style = getComputedStyle(this.#text);
    const context = document.createElement("canvas").getContext("2d");
    context.font = style.font;
    return {
      lineHeight: parseFloat(style.lineHeight),
      paddingTop: parseFloat(style.paddingTop),
      paddingLeft: parseFloat(style.paddingLeft),
      characterWidth: context.measureText("0".repeat(100)).width / 100,
      tabSize: Number(style.tabSize),
    };
  }
}

/** The columns that characters take up. */
function widthOf(characters, tabSize) {
  return characters.reduce((width, it) => (it === "\t" ? width - (width % tabSize) + tabSize : width + 1), 0);
}
