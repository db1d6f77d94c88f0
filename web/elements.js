// Makes elements of the page. Texts are set as text, never as markup.

/** An element with properties and children. A property with a hyphen, and `role`, is set as an attribute. */
export function element(tag, properties = {}, ...children) {
  const made = document.createElement(tag);
  for (const [name, value] of Object.entries(properties)) {
    if (name.includes("-") || name === "role" || name === "scope") {
      made.setAttribute(name, value);
    } else {
      made[name] = value;
    }
  }
  made.append(...children);
  return made;
}

/** The element with an id. */
export function byId(id) {
  return document.getElementById(id);
}

/** Shows a text, or hides the element if it is empty. */
export function showText(target, text) {
  target.textContent = text;
  target.hidden = text === "";
}

/** Offers bytes as a file to save. */
export function saveFile(name, bytes) {
  const url = URL.createObjectURL(new Blob([bytes]));
  element("a", { href: url, download: name }).click();
  // after the browser has begun to read it
  setTimeout(() => URL.revokeObjectURL(url), 1000);
}

/** A count and its noun. */
export function counted(count, noun) {
  return `${count.toLocaleString("en")} ${noun}${count === 1 ? "" : "s"}`;
}
