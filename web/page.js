// The page: opens images, shows them, and runs programs on them.
import { ByteView } from "./byte_view.js";
import { Calls, Stopped } from "./calls.js";
import { Editor } from "./editor.js";
import { byId, counted, element, saveFile, showText } from "./elements.js";
import { EXAMPLES, SOURCES, exampleFile } from "./examples.js";
import { HeapMap, MAP_WORDS } from "./heap_map.js";
import { BlockKind, ImageBytes, UNIT } from "./image.js";
import { ABSENT, STOPPED, WRONG, hasMemory64 } from "./lezgauri.js";
import { costsOf, decoded, faultPosition, linesOf, ownersOf, problemsOf, refusalOf, valuesOf } from "./printed.js";
import { Run } from "./stepper.js";
import { ValueTree } from "./value_tree.js";

/** The most characters of an output that are shown: more would make the page slow. */
const MOST_OUTPUT = 1_000_000;

/** The most bytes of images that are kept for "undo". */
const MOST_EARLIER_BYTES = 256 * 1024 * 1024;

/** How long after a key the text is translated, in milliseconds. */
const PAUSE = 150;

/** How many of the instructions before and after the last one are listed. */
const LISTED = 6;

/** The most instructions to which "to the end" goes. */
const MOST_PERFORMED = 1_000_000;

/** How an image begins: its header and its types, which are enough to translate a program for it. */
const FRONT = 704;

const NO_OWNERS = { names: [], owners: [] };

const encoder = new TextEncoder();

class Page {
  #calls = new Calls();
  #name = "new.image";
  #image = null;
  #isSound = false;
  #owners = null;
  #earlier = [];
  #sourceName = "program.lez";
  #client = null;
  #run = null;
  #performed = 0;
  #imageAtStep = null;
  #changed = [];
  #faultMarks = [];
  #look = -1;
  #pointers = { image: null, byName: new Map() };
  #timer = 0;
  #pending = 0;
  #last = Promise.resolve();
  #turn = 0;

  #values = new ValueTree(byId("values"), (name) => this.#showWhole(name));
  #bytes = new ByteView(byId("bytes"));
  #map = new HeapMap(byId("map"), byId("canvas"), {
    onLook: (index) => this.#describe(index),
    onOpen: (index) => this.#openBlock(index),
  });
  #editor = new Editor(
    { text: byId("text"), gutter: byId("gutter"), marks: byId("marks") },
    () => this.#edited(),
  );

  constructor() {
    this.#listen();
    for (const [index, { title }] of EXAMPLES.entries()) {
      byId("example").append(element("option", { value: String(index) }, title));
    }
    byId("source-example").append(...SOURCES.map((name) => element("option", {}, name)));
    for (const word of MAP_WORDS) {
      const colour = element("span", {});
      colour.style.background = `var(--${word})`;
      byId("legend").append(element("li", {}, colour, word));
    }
    this.#attempt(() => this.#loadExample(EXAMPLES[0]));
  }

  // Events

  #listen() {
    const actions = {
      open: () => byId("file").click(),
      "load-example": () => this.#loadExample(EXAMPLES[Number(byId("example").value)]),
      undo: () => this.#undo(),
      save: () => saveFile(this.#name, this.#image.bytes),
      "zoom-in": () => this.#zoom(true),
      "zoom-out": () => this.#zoom(false),
      earlier: () => this.#turnBytes(-1),
      later: () => this.#turnBytes(1),
      "open-client": () => byId("client-file").click(),
      "load-source": () => this.#loadSource(byId("source-example").value),
      "save-text": () => saveFile(this.#sourceName, this.#source.bytes),
      "save-client": () => saveFile("out.client", this.#client),
      run: () => this.#runClient(),
      step: () => this.#stepThrough(),
      first: () => this.#goTo(0),
      back: () => this.#goTo(this.#performed - 1),
      forth: () => this.#goTo(this.#performed + 1),
      "line-forth": () => this.#goToNextLine(),
      last: () => this.#goToEnd(),
      leave: () => this.#leaveSteps(),
    };
    for (const [id, action] of Object.entries(actions)) {
      byId(id).addEventListener("click", () => this.#attempt(action));
    }
    byId("stop").addEventListener("click", () => this.#calls.stop());
    byId("language").addEventListener("change", ({ target }) => this.#chooseLanguage(target.value));
    onSubmit("new", (fields) => this.#attempt(() => this.#make(fields)));
    onSubmit("go", (fields) => this.#goToByte(Number(fields.at)));
    onFile("file", (file) => this.#attempt(() => this.#openFile(file)));
    onFile("client-file", (file) => this.#attempt(() => this.#openClient(file)));
    byId("performed").addEventListener("change", ({ target }) => this.#attempt(() => this.#goTo(Math.trunc(Number(target.value)))));
    this.#listenToDrops();
  }

  #listenToDrops() {
    const target = byId("drop");
    // words that are dragged are for the editor
    const hasFile = ({ dataTransfer }) => dataTransfer.types.includes("Files");
    addEventListener("dragover", (event) => {
      if (hasFile(event)) {
        event.preventDefault();
        target.classList.add("over");
      }
    });
    addEventListener("dragleave", () => target.classList.remove("over"));
    addEventListener("drop", (event) => {
      target.classList.remove("over");
      if (hasFile(event)) {
        event.preventDefault();
        const [file] = event.dataTransfer.files;
        this.#attempt(() => this.#openFile(file));
      }
    });
  }

  /** Does something after what was begun before, and tells why if it fails. */
  #attempt(action) {
    this.#pending += 1;
    byId("main").ariaBusy = "true";
    this.#last = this.#last.then(() => this.#attemptNow(action));
  }

  async #attemptNow(action) {
    byId("engine").hidden = true;
    try {
      await action();
    } catch (error) {
      if (!(error instanceof Stopped)) {
        byId("engine").hidden = false;
        byId("engine").textContent = `That didn't work: ${error.message}`;
      }
    }
    this.#pending -= 1;
    byId("main").ariaBusy = String(this.#pending > 0);
  }

  // Images

  async #openFile(file) {
    const bytes = new Uint8Array(await file.arrayBuffer());
    const start = decoded(bytes.subarray(0, 4));
    if (start === "SEGC" || isNameOfSource(file.name)) {
      await this.#openClient(file);
    } else {
      await this.#showOther(file.name, bytes);
    }
  }

  async #make({ size, allocator, index }) {
    const { status, text, file } = await this.#calls.make("create", Number(size), Number(allocator), Number(index));
    if (status === 0) {
      await this.#showOther("new.image", file);
    } else {
      this.#showVerdict(refusalOf(decoded(text)));
    }
  }

  async #loadExample({ image, make, damage = [], ran = [], source, input = "" }) {
    let bytes;
    if (image === undefined) {
      bytes = (await this.#calls.make("create", make.size, make.allocator, make.index)).file;
    } else {
      bytes = await fetched(exampleFile(image));
    }
    for (const { source: name, input: given = "" } of ran) {
      const program = { name, bytes: await fetched(exampleFile(name)) };
      bytes = (await this.#calls.make("run", bytes, program, encoder.encode(given))).file;
    }
    for (const [at, byte] of damage) {
      bytes[at] = byte;
    }
    this.#setSource(source, decoded(await fetched(exampleFile(source))));
    byId("input").value = input;
    await this.#showOther("example.image", bytes);
  }

  /** Shows an image that has nothing to do with the one before. */
  async #showOther(name, bytes) {
    this.#earlier = [];
    this.#showOutput("", "");
    byId("go").elements.namedItem("at").value = 0;
    await this.#show(name, bytes);
  }

  /** Checks an image and shows it. */
  async #show(name, bytes) {
    this.#leaveSteps();
    this.#name = name;
    this.#image = new ImageBytes(bytes);
    this.#isSound = false;
    this.#setClient(null);
    this.#owners = null;
    this.#changed = [];
    this.#map.select(-1);
    byId("save").disabled = false;
    byId("undo").disabled = this.#earlier.length === 0;
    const { status, text } = await this.#calls.make("check", bytes);
    this.#isSound = status === 0;
    const refusal = this.#isSound ? null : refusalOf(decoded(text));
    this.#showVerdict(refusal);
    await this.#showFacts();
    await this.#showValues(bytes);
    this.#showTypes();
    this.#showBytes(refusal);
    this.#showMap();
    await this.#translate();
  }

  #showVerdict(refusal) {
    const verdict = byId("verdict");
    verdict.classList.toggle("bad", refusal !== null);
    if (refusal === null) {
      verdict.textContent = `${this.#name}: the checker accepts it.`;
      showText(byId("explanation"), "");
    } else {
      verdict.textContent = `${this.#name}: refused, ${refusal.line}.`;
      showText(byId("explanation"), refusal.explanation.join("\n"));
    }
  }

  async #showFacts() {
    const facts = [["bytes", this.#image.length], ["version", this.#image.version]];
    if (this.#isSound) {
      const { text } = await this.#calls.make("stat", this.#image.bytes);
      facts.push(...linesOf(decoded(text)).slice(1).map((line) => line.split(" ")));
      facts.push(["allocator", this.#image.isBestFit ? "best fit" : "sequential fit"]);
      facts.push(["index", this.#image.hasTreeIndex ? "tree" : "flat"]);
    }
    const rows = facts.map(([name, value]) => element("div", {}, element("dt", {}, name), element("dd", {}, grouped(value))));
    byId("facts").replaceChildren(...rows);
  }

  async #showValues(bytes) {
    if (!this.#isSound) {
      this.#values.clear();
      byId("values-note").textContent = "Values are shown only of an image that the checker accepts.";
      return;
    }
    const { status, text } = await this.#calls.make("show", bytes);
    if (status !== 0) {
      byId("values-note").textContent =
        "At this step a register owns an object that nothing points to, so the values are those of an earlier step.";
      return;
    }
    const values = valuesOf(decoded(text));
    byId("values-note").textContent = values.length === 0 ? "There are no objects." : "";
    this.#values.show(values);
  }

  async #showWhole(name) {
    const { status, text } = await this.#calls.make("show", this.#shownImage.bytes, { name, whole: true });
    if (status !== ABSENT) {
      this.#values.replace(name, valuesOf(decoded(text)));
    }
  }

  #showTypes() {
    const rows = this.#image.types.map((_, number) => element("li", {}, this.#image.typeText(number)));
    byId("types").replaceChildren(...rows);
  }

  // The heap

  #showMap() {
    const faults = this.#faultMarks.map(({ from, to }) => [from, to]);
    this.#map.show(this.#shownImage, [...faults, ...this.#changed]);
    this.#showScale();
  }

  #zoom(isIn) {
    this.#map.zoom(isIn);
    this.#showScale();
  }

  #showScale() {
    byId("scale").textContent = `a cell: ${counted(this.#map.cellBytes, "byte")}`;
  }

  /** Tells what a block is, and draws its pointers. */
  async #describe(index) {
    this.#look = index;
    if (index < 0) {
      byId("block").textContent = "";
      this.#map.point([]);
      return;
    }
    const image = this.#shownImage;
    const owner = await this.#ownerOf(image, index);
    if (this.#look === index && image === this.#shownImage) {
      byId("block").textContent = blockInWords(image, index, owner);
      this.#map.point(this.#pointersAt(image, index, owner));
    }
  }

  /** The name of the object to which a block belongs, or null. */
  async #ownerOf(image, index) {
    if (this.#owners?.image !== image) {
      this.#owners = { image, found: this.#readOwners(image) };
    }
    const { names, owners } = await this.#owners.found;
    return names[owners[index] ?? -1] ?? null;
  }

  async #readOwners(image) {
    try {
      const { status, text } = await this.#calls.make("map", image.bytes);
      return status === 0 ? ownersOf(text) : NO_OWNERS;
    } catch {
      // the map then tells no owners until the next look
      this.#owners = null;
      return NO_OWNERS;
    }
  }

  /** The pointers that begin or end in a block. */
  #pointersAt(image, index, owner) {
    const from = image.blocks.starts[index];
    const to = from + image.blocks.units(index) * UNIT;
    const touches = (position) => position >= from && position < to;
    if (image.blocks.kind(index) === BlockKind.FREE) {
      return image.freePointers(from);
    }
    const ofIndex = this.#pointersFrom(image, "", () => image.indexPointers());
    const ofOwner = owner === null ? [] : this.#pointersFrom(image, owner, () => pointersOfObject(image, owner));
    return ofIndex.concat(ofOwner).filter(([start, end]) => touches(start) || touches(end));
  }

  #pointersFrom(image, name, find) {
    if (this.#pointers.image !== image) {
      this.#pointers = { image, byName: new Map() };
    }
    const { byName } = this.#pointers;
    if (!byName.has(name)) {
      byName.set(name, find());
    }
    return byName.get(name);
  }

  #openBlock(index) {
    if (index >= 0) {
      this.#goToByte(this.#shownImage.blocks.starts[index]);
      byId("bytes").focus();
    }
  }

  // Bytes

  #showBytes(refusal) {
    this.#faultMarks = [];
    if (refusal === null) {
      this.#goToByte(Number(byId("go").elements.namedItem("at").value));
      return;
    }
    const at = faultPosition(refusal);
    this.#faultMarks = [{ from: at, to: at + 4, kind: "fault" }];
    this.#bytes.show(this.#image, this.#faultMarks, at);
    this.#showPlace(at);
  }

  #goToByte(at) {
    const image = this.#shownImage;
    if (image === null) {
      return;
    }
    const place = Math.min(Math.max(at, 0), image.length - 1);
    const index = image.blocks.around(place);
    const marks = [...this.#faultMarks, ...this.#changeMarks()];
    if (index >= 0) {
      const from = image.blocks.starts[index];
      marks.push({ from, to: from + image.blocks.units(index) * UNIT, kind: "" });
    }
    this.#bytes.show(image, marks, place);
    this.#showPlace(place);
  }

  #turnBytes(pages) {
    this.#bytes.turn(pages);
    this.#showPlace(this.#bytes.first);
  }

  #showPlace(at) {
    byId("go").elements.namedItem("at").value = at;
    byId("place").textContent = this.#shownImage.describe(at);
  }

  #changeMarks() {
    return this.#changed.map(([from, to]) => ({ from, to, kind: "changed" }));
  }

  // Programs

  /** The text in the editor, with the name that tells its language. */
  get #source() {
    return { name: this.#sourceName, bytes: encoder.encode(this.#editor.value) };
  }

  get #isProgram() {
    return this.#sourceName.endsWith(".lez");
  }

  #setSource(name, text) {
    this.#leaveSteps();
    this.#sourceName = name;
    byId("language").value = this.#isProgram ? ".lez" : ".text";
    if (SOURCES.includes(name)) {
      byId("source-example").value = name;
    }
    this.#editor.value = text;
  }

  #chooseLanguage(suffix) {
    this.#sourceName = this.#sourceName.replace(/\.(lez|text)$/, suffix);
    this.#editor.clearMarks();
    this.#edited();
  }

  async #loadSource(name) {
    this.#setSource(name, decoded(await fetched(exampleFile(name))));
    await this.#translate();
  }

  async #openClient(file) {
    const bytes = new Uint8Array(await file.arrayBuffer());
    if (decoded(bytes.subarray(0, 4)) !== "SEGC") {
      this.#setSource(isNameOfSource(file.name) ? file.name : `${file.name}.lez`, decoded(bytes));
    } else {
      const { status, text } = await this.#calls.make("print", bytes);
      if (status !== 0) {
        this.#showRejection(`${file.name}: refused, ${decoded(text)}`, []);
        return;
      }
      this.#setSource(`${file.name}.text`, decoded(text));
    }
    await this.#translate();
  }

  #edited() {
    this.#leaveSteps();
    this.#setClient(null);
    clearTimeout(this.#timer);
    this.#timer = setTimeout(() => this.#attempt(() => this.#translate()), PAUSE);
  }

  /** Compiles or assembles the text and verifies the client, and shows what is wrong with it or what it costs. */
  async #translate() {
    const turn = ++this.#turn;
    const source = this.#source;
    const front = this.#isSound ? this.#image.bytes.slice(0, FRONT) : new Uint8Array();
    this.#setClient(null);
    const made = this.#isProgram
      ? await this.#calls.make("compile", source, front, { checked: true })
      : await this.#calls.make("assemble", source.bytes);
    if (turn !== this.#turn) {
      return;
    }
    if (made.status !== 0) {
      this.#showWrong(made);
      return;
    }
    const warnings = problemsOf(decoded(made.text));
    if (!this.#isSound) {
      this.#showProblems(warnings);
      this.#showRejection("The text makes a client. It can be verified for an image that the checker accepts.", []);
      return;
    }
    const verified = await this.#calls.make("verify", front, source, { checked: true });
    if (turn !== this.#turn) {
      return;
    }
    if (verified.status !== 0) {
      this.#showWrong(verified);
      return;
    }
    this.#setClient(made.file);
    this.#showCosts(costsOf(decoded(verified.text)), warnings);
  }

  #setClient(client) {
    this.#client = client;
    for (const id of ["run", "step", "save-client"]) {
      byId(id).disabled = client === null;
    }
  }

  #showCosts({ whole, steps, loops }, warnings) {
    this.#showProblems(warnings, steps);
    const also = warnings.length === 0 ? "" : ` ${counted(warnings.length, "warning")}.`;
    this.#showRejection(`The verifier accepts it. A run takes at most ${whole.toLocaleString("en")} steps.${also}`, []);
    byId("loops").replaceChildren(...loops.map(({ line, words }) => element("li", {}, `Loop of line ${line}: ${words}`)));
  }

  /** Shows why a text has no client, or why the client is refused. */
  #showWrong({ status, text }) {
    if (status === WRONG) {
      const problems = problemsOf(decoded(text));
      this.#showProblems(problems);
      this.#showRejection(`${counted(problems.length, "error")}. ${problemInWords(problems[0])}`, []);
    } else {
      this.#showFlaw(refusalOf(decoded(text)));
    }
    byId("bound").classList.add("bad");
  }

  /** Shows why the library refuses a text or its client, of an assembler text at its line. */
  #showFlaw(refusal) {
    const line = this.#isProgram ? null : flawLine(this.#editor.value, refusal);
    const message = flawInWords(refusal.explanation);
    this.#showProblems(line === null ? [] : [wholeLine(this.#editor.value, line, message)]);
    const place = line === null ? "" : `Line ${line}: `;
    this.#showRejection(`${place}${refusal.line}. ${message}`, refusal.explanation);
  }

  /** Shows errors or warnings in the editor and below it, and the steps of lines. */
  #showProblems(problems, steps = new Map()) {
    this.#editor.show(steps, problems);
    const items = problems.map((it) => {
      const goTo = () => this.#editor.goTo(it.line, it.column);
      return element("li", {}, element("button", { type: "button", className: it.kind, onclick: goTo }, problemInWords(it)));
    });
    byId("problems").replaceChildren(...(this.#isProgram ? items : []));
    byId("loops").replaceChildren();
  }

  #showRejection(words, explanation) {
    byId("bound").classList.remove("bad");
    byId("bound").textContent = words;
    showText(byId("rejection"), explanation.join("\n"));
  }

  get #input() {
    return encoder.encode(byId("input").value);
  }

  async #runClient() {
    this.#leaveSteps();
    const before = this.#image.bytes;
    const begun = performance.now();
    byId("stop").disabled = false;
    byId("ran").textContent = "It runs.";
    try {
      const { status, text, file } = await this.#calls.make("run", before, this.#source, this.#input);
      const duration = performance.now() - begun;
      this.#showOutput(ranInWords(status, duration), decoded(text));
      if (file !== null) {
        this.#keep({ name: this.#name, bytes: before });
        await this.#show(this.#name, file);
      }
    } catch (error) {
      byId("ran").textContent = error instanceof Stopped ? "The run was stopped, and the image is as before." : "";
      throw error;
    } finally {
      byId("stop").disabled = true;
    }
  }

  #showOutput(words, output) {
    const isCut = output.length > MOST_OUTPUT;
    byId("ran").textContent = isCut ? `${words} The first ${counted(MOST_OUTPUT, "character")} of its output are shown.` : words;
    byId("output").textContent = isCut ? output.slice(0, MOST_OUTPUT) : output;
  }

  /** Keeps an image for "undo", at least the last one. */
  #keep(earlier) {
    this.#earlier.push(earlier);
    let kept = this.#earlier.reduce((sum, { bytes }) => sum + bytes.length, 0);
    while (this.#earlier.length > 1 && kept > MOST_EARLIER_BYTES) {
      kept -= this.#earlier.shift().bytes.length;
    }
  }

  async #undo() {
    const { name, bytes } = this.#earlier.pop();
    this.#showOutput("The last run is undone.", "");
    await this.#show(name, bytes);
  }

  // Steps

  /** The image at the step that is shown, or else the open one. */
  get #shownImage() {
    return this.#imageAtStep ?? this.#image;
  }

  async #stepThrough() {
    this.#run = new Run(this.#calls, this.#image.bytes, this.#source, this.#input);
    byId("steps").hidden = false;
    await this.#goTo(0);
    byId("forth").focus();
  }

  #leaveSteps() {
    if (this.#run !== null) {
      this.#run = null;
      this.#imageAtStep = null;
      this.#changed = [];
      byId("steps").hidden = true;
      this.#editor.showCurrent(null);
      this.#bytes.show(this.#image, []);
      this.#showMap();
      this.#attempt(() => this.#showValues(this.#image.bytes));
    }
  }

  async #goToEnd() {
    byId("stop").disabled = false;
    try {
      await this.#goTo(await this.#run.end(MOST_PERFORMED));
    } finally {
      byId("stop").disabled = true;
    }
  }

  /** Goes on until the next instruction comes from another line. */
  async #goToNextLine() {
    await this.#goTo(await this.#run.endOfLine(this.#performed));
  }

  /** Shows the run after `count` instructions. */
  async #goTo(count) {
    const run = this.#run;
    if (run === null || !(count >= 0)) {
      return;
    }
    // this also reads the instructions around it
    const next = await run.performed(count);
    const performed = next === null ? await run.end(count) : count;
    const last = performed === 0 ? null : await run.performed(performed - 1);
    const before = performed < 2 ? null : await run.performed(performed - 2);
    const image = await run.image(performed);
    const changed = await run.changes(performed);
    if (run !== this.#run) {
      return;
    }
    this.#performed = performed;
    this.#imageAtStep = new ImageBytes(image);
    this.#changed = changed;
    this.#showTime(next === null);
    this.#showCurrentLine(next ?? last);
    this.#showRegisters(last, before);
    await this.#showPerformed(run);
    this.#showChanges();
    await this.#showValues(image);
  }

  #showTime(isAtEnd) {
    byId("performed").value = this.#performed;
    byId("of").textContent = this.#run.isWhole ? `of ${counted(this.#run.known, "instruction")}` : "instructions, of more";
    byId("back").disabled = byId("first").disabled = this.#performed === 0;
    byId("forth").disabled = byId("line-forth").disabled = byId("last").disabled = isAtEnd;
  }

  #showCurrentLine(performed) {
    this.#editor.showCurrent(performed?.line ?? null);
  }

  #showRegisters(last, before) {
    const registers = last?.registers ?? new Map();
    const earlier = before?.registers ?? new Map();
    const names = [...new Set([...registers.keys(), ...earlier.keys()])].sort((a, b) => a.slice(1) - b.slice(1));
    const rows = names.map((name) => {
      const { variable, content } = registers.get(name) ?? { variable: "", content: "undefined" };
      const isChanged = content !== (earlier.get(name)?.content ?? "undefined");
      const words = content.replace(/^= /, "");
      return element(
        "tr",
        { className: isChanged ? "changed" : "" },
        element("th", { scope: "row" }, name),
        element("td", {}, variable),
        element("td", {}, isChanged ? `${words} (changed)` : words),
      );
    });
    byId("registers").replaceChildren(...rows);
  }

  async #showPerformed(run) {
    const rows = [];
    for (let index = Math.max(0, this.#performed - LISTED); index < this.#performed + LISTED; index++) {
      const performed = await run.performed(index);
      if (performed === null) {
        break;
      }
      const row = element(
        "tr",
        {},
        element("td", {}, String(performed.step ?? "-")),
        element("td", {}, String(performed.line ?? "")),
        element("td", {}, performed.code),
        element("td", {}, performed.output ?? ""),
      );
      if (index === this.#performed - 1) {
        row.setAttribute("aria-current", "step");
      }
      rows.push(row);
    }
    byId("performed-rows").replaceChildren(...rows);
  }

  #showChanges() {
    const image = this.#shownImage;
    const [first] = this.#changed;
    if (first === undefined) {
      byId("changes").textContent = this.#performed === 0 ? "Before the first instruction." : "It changed no byte.";
      this.#bytes.show(image, []);
    } else {
      const count = this.#changed.reduce((sum, [from, to]) => sum + to - from, 0);
      byId("changes").textContent = `It changed ${counted(count, "byte")}, the first at ${first[0]}: ${image.describe(first[0])}.`;
      this.#bytes.show(image, this.#changeMarks(), first[0]);
      this.#showPlace(first[0]);
    }
    this.#map.show(image, this.#changed);
  }
}

/** The line of an assembler text that a refusal is about, from 1, or null. */
function flawLine(text, { number, operands: [operand], explanation }) {
  const [badLine, mismatch] = [21, 4];
  const lines = text.split("\n");
  if (number === badLine) {
    return Math.min(operand, lines.length);
  }
  if (number === mismatch) {
    // types come first
    const types = lines.flatMap((it, index) => (it.startsWith("type ") ? [index + 1] : []));
    return types[operand] ?? null;
  }
  const told = /^instruction \d+, line (\d+)/.exec(explanation[0] ?? "");
  return told === null ? null : Number(told[1]);
}

/** An error that is about all of a line. */
function wholeLine(text, line, message) {
  const words = text.split("\n")[line - 1] ?? "";
  const start = words.length - words.trimStart().length;
  return { line, column: start + 1, kind: "error", message, width: words.trim().length, hint: "" };
}

function problemInWords({ line, column, kind, message, hint }) {
  return `Line ${line}, column ${column}: ${kind}: ${message}${hint === "" ? "" : ` — ${hint}`}`;
}

function isNameOfSource(name) {
  return name.endsWith(".lez") || name.endsWith(".text");
}

/** The part of an explanation that fits on a line: what a register should contain and what it does, or the first rule. */
function flawInWords(explanation) {
  const lines = explanation.filter((it) => !/^(line|instruction) \d+/.test(it));
  const wanted = lines.find((it) => /^r\d+ should /.test(it));
  if (wanted === undefined) {
    return lines[0] ?? "";
  }
  const [register] = wanted.split(" ", 1);
  return `${lines.find((it) => it.startsWith(`${register} `))}; ${wanted}`;
}

function pointersOfObject(image, name) {
  const object = image.object(name);
  return object === null ? [] : image.pointersOf(object);
}

function blockInWords(image, index, owner) {
  const { blocks } = image;
  const at = blocks.starts[index];
  const units = blocks.units(index);
  const size = `${counted(units, "unit")}, ${counted(units * UNIT, "byte")}`;
  const word = blocks.word(index);
  const kind = blocks.kind(index);
  const hasType = kind >= BlockKind.NAMED && kind !== BlockKind.INDEX_BUFFER && kind !== BlockKind.INDEX_NODE;
  const type = hasType ? `, type t${blocks.type(index)} (${image.typeText(blocks.type(index))})` : "";
  return `Block at ${at}: ${word}${owner === null ? "" : ` of ${owner}`}, ${size}${type}.`;
}

function ranInWords(status, duration) {
  const time = `${duration < 10 ? duration.toFixed(1) : Math.round(duration)} ms`;
  if (status === STOPPED) {
    return `The output became too long, and the run ended there, after ${time}. The image was saved as it was then.`;
  }
  return status === 0 ? `It ran in ${time}, with the check of the image.` : "No client ran.";
}

/** A number with separators, other words as they are. */
function grouped(value) {
  return /^\d+$/.test(value) ? BigInt(value).toLocaleString("en") : value;
}

async function fetched(name) {
  const response = await fetch(name);
  if (!response.ok) {
    throw new Error(`${name}: ${response.status} ${response.statusText}`);
  }
  return new Uint8Array(await response.arrayBuffer());
}

function onSubmit(id, action) {
  byId(id).addEventListener("submit", (event) => {
    event.preventDefault();
    action(Object.fromEntries(new FormData(event.target)));
  });
}

function onFile(id, action) {
  byId(id).addEventListener("change", ({ target }) => {
    const [file] = target.files;
    target.value = "";
    if (file !== undefined) {
      action(file);
    }
  });
}

if (hasMemory64()) {
  new Page();
} else {
  byId("main").hidden = true;
  byId("engine").hidden = false;
  byId("engine").textContent =
    "This browser doesn't run WebAssembly modules with a 64-bit memory (memory64), which this page needs. " +
    "Firefox 134 and Chrome 133 do, and later ones. On the command line, segtool does the same.";
}
