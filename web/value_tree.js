// The values of an image as nested lists that open and close.
import { element } from "./elements.js";

/** The most values that are shown at once: more would make the page slow. */
const MOST_VALUES = 20_000;

/** Shows values in an element. `onWhole` is called with the name of an object of which more is to be shown. */
export class ValueTree {
  #target;
  #onWhole;
  #left = 0;

  constructor(target, onWhole) {
    this.#target = target;
    this.#onWhole = onWhole;
  }

  clear() {
    this.#target.replaceChildren();
  }

  /** Shows all objects. */
  show(values) {
    this.#left = MOST_VALUES;
    this.#target.replaceChildren(this.#list(values, (value) => this.#object(value)));
  }

  /** Shows more of the values of one object. */
  replace(name, values) {
    this.#left = MOST_VALUES;
    const items = [...this.#target.querySelectorAll(":scope > ul > li")].filter((it) => it.dataset.name === name);
    const shown = values.filter(({ label }) => nameOf(label) === name).map((value) => this.#object(value, true));
    items[0]?.before(...shown);
    items.forEach((it) => it.remove());
    shown[0]?.querySelector("summary")?.focus();
  }

  #list(values, item) {
    const list = element("ul");
    for (const value of values) {
      if (this.#left <= 0) {
        list.append(element("li", { className: "leaf hint" }, "the rest isn't shown here; segtool show prints all"));
        break;
      }
      this.#left -= 1;
      list.append(item(value));
    }
    return list;
  }

  #object(value, whole = false) {
    const item = this.#item(value, true);
    const name = nameOf(value.label);
    item.dataset.name = name;
    if (!whole && isCut(value) && !name.startsWith("frozen ")) {
      const button = element("button", { type: "button", onclick: () => this.#onWhole(name) }, `All of ${name}`);
      (item.querySelector("details") ?? item).append(button);
    }
    return item;
  }

  #item(value, open = false) {
    const line = [element("span", { className: "label" }, value.label), value.label === "" ? "" : ": ", value.value];
    if (value.parts.length === 0) {
      return element("li", { className: "leaf" }, ...line);
    }
    const parts = this.#list(value.parts, (part) => this.#item(part, value.parts.length <= 8));
    return element("li", {}, element("details", { open }, element("summary", {}, ...line), parts));
  }
}

/** The name of the object to which a label belongs. */
function nameOf(label) {
  return label.replace(/(\[\d+\]|, count \d+)$/, "");
}

/** Whether a part of a value was left out. */
function isCut({ label, value, parts }) {
  return (label === "" && /^and \d+ more$/.test(value)) || /^".*"\.\. of \d+$/s.test(value) || parts.some(isCut);
}
