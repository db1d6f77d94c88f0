// Compares the page's module with segtool: node wasm.mjs SEGTOOL MODULE IMAGES WORK RANDOM
//
// On each image of the folder IMAGES, on the examples, on the programs of the tests, and on RANDOM damaged images, texts and programs,
// the module has to give the bytes and the status that segtool gives with --explain. What the page's scripts read from them is compared
// too. WORK is a folder for files.
import assert from "node:assert/strict";
import { spawnSync } from "node:child_process";
import { existsSync, readFileSync, readdirSync, rmSync, writeFileSync } from "node:fs";
import { ImageBytes, UNIT } from "../web/image.js";
import { ABSENT, STOPPED, WRONG, Lezgauri, hasMemory64 } from "../web/lezgauri.js";
import { costsOf, decoded, linesOf, ownersOf, problemsOf, refusalOf, traceOf, valuesOf } from "../web/printed.js";

const [segtool, modulePath, imagesFolder, work, randomCount] = process.argv.slice(2);
const examples = new URL("../examples/", import.meta.url);
const tests = new URL("../crates/test_command/data/", import.meta.url);
const module = new Lezgauri(new WebAssembly.Module(readFileSync(modulePath)));
const nothing = new Uint8Array();
const encoder = new TextEncoder();
let compared = 0;

/** Random numbers, the same in each run. */
class Random {
  #state;

  constructor(seed) {
    this.#state = seed;
  }

  /** A number from 0 to below `end`. */
  below(end) {
    this.#state = (Math.imul(this.#state, 1664525) + 1013904223) >>> 0;
    return Math.floor((this.#state / 2 ** 32) * end);
  }
}

function read(name) {
  return new Uint8Array(readFileSync(new URL(name, examples)));
}

/** Runs segtool on files of WORK. Returns its status, both outputs, and the file OUT if there is one. */
function command(...words) {
  rmSync(`${work}/OUT`, { force: true });
  const ran = spawnSync(segtool, words, { cwd: work, maxBuffer: 2 ** 30 });
  const file = existsSync(`${work}/OUT`) ? new Uint8Array(readFileSync(`${work}/OUT`)) : null;
  return { status: ran.status, out: ran.stdout, err: ran.stderr, file };
}

/** What segtool has to print for an answer. `verify --explain` on a program ends with a line that the page doesn't have. */
function printed(answer, words, out) {
  const text = decoded(answer.text);
  if (words[0] !== "verify" || !words[2].endsWith(".lez")) {
    return text;
  }
  const [meaning] = out.match(/meaning (not )?shown\n$/) ?? ["meaning shown or not shown\n"];
  return text + meaning;
}

/** Compares an answer with what segtool prints and writes. On its error output `warnings` come first. */
function same(answer, words, label, warnings = "") {
  const { status, out, err, file } = command(...words, "--explain");
  const place = `${label}: segtool ${words.join(" ")}`;
  const isDone = answer.status === 0;
  assert.equal(status, isDone ? 0 : 1, place);
  if (answer.status !== ABSENT) {
    assert.equal(decoded(out), isDone ? printed(answer, words, decoded(out)) : "", place);
    assert.equal(decoded(err), isDone ? warnings : warnings + decoded(answer.text), place);
  }
  if (!isDone && answer.status !== ABSENT && answer.status !== WRONG) {
    assert.equal(refusalOf(decoded(answer.text)).number, answer.status, place);
  }
  if (file !== null || answer.file !== null) {
    assert.deepEqual(answer.file, file, place);
  }
  compared += 1;
}

function put(name, bytes) {
  writeFileSync(`${work}/${name}`, bytes);
}

/** Compares all answers on an image. Returns whether it is sound. */
function compareImage(bytes, label) {
  put("image", bytes);
  const checked = module.check(bytes);
  same(checked, ["check", "image"], label);
  if (checked.status !== 0) {
    same(module.map(bytes), ["map", "image"], label);
    return false;
  }
  for (const call of ["stat", "types", "list", "map", "show"]) {
    same(module[call](bytes), [call, "image"], label);
  }
  same(module.show(bytes, { whole: true }), ["show", "image", "--all"], label);
  same(module.show(bytes, { name: "nobody" }), ["show", "image", "nobody"], label);
  comparePictures(bytes, label);
  return true;
}

/** Compares what the page's scripts read from an image's bytes with what segtool prints. */
function comparePictures(bytes, label) {
  const image = new ImageBytes(bytes);
  const names = image.names().map(({ name, type, count }) => `${name} ${type} ${count}`);
  const listed = linesOf(decoded(module.list(bytes).text)).filter((line) => !/^unique \d+$/.test(line));
  assert.deepEqual(names, listed, label);
  for (const line of listed) {
    const [name] = line.split(" ");
    same(module.show(bytes, { name }), ["show", "image", name], label);
  }
  const { text } = module.map(bytes);
  const blocks = linesOf(decoded(text)).map((line) => line.split(" "));
  const found = Array.from(image.blocks.starts, (at, index) => [String(at), String(image.blocks.units(index)), image.blocks.word(index)]);
  assert.deepEqual(found, blocks.map(([at, units, , word]) => [at, units, word]), label);
  assert.equal(image.blocks.end, bytes.length, label);
  comparePointers(image, ownersOf(text), label);
  const shown = module.show(bytes, { whole: true }).text;
  assert.equal(countOf(valuesOf(decoded(shown))), linesOf(decoded(shown)).length, label);
}

/** Each pointer of an object points to a block of the object, and each of its blocks but the first is pointed to. */
function comparePointers(image, { names, owners }, label) {
  const pointed = new Set();
  for (const name of names) {
    const object = image.object(name);
    pointed.add(object.at);
    for (const [, to] of image.pointersOf(object)) {
      pointed.add(to);
    }
  }
  owners.forEach((owner, index) => {
    const payload = image.blocks.starts[index] + UNIT;
    // the value of a frozen object comes after its count and its number
    assert.equal(owner >= 0, pointed.has(payload) || pointed.has(payload + 8), `${label}: the block at ${payload - UNIT}`);
  });
}

function countOf(values) {
  return values.reduce((count, { parts }) => count + 1 + countOf(parts), 0);
}

/** Compares all answers on an assembler text, and on its client on an image. */
function compareText(bytes, image, input, label) {
  put("text", bytes);
  const assembled = module.assemble(bytes);
  same(assembled, ["asm", "text", "OUT"], label);
  compareSource({ name: "source.text", bytes }, image, input, label);
  if (assembled.status === 0) {
    compareClient(assembled.file, image, input, label);
  }
}

function compareClient(bytes, image, input, label) {
  put("client", bytes);
  same(module.print(bytes), ["print", "client"], label);
  compareSource({ name: "client", bytes }, image, input, label);
}

function compareProgram(bytes, image, input, label) {
  compareSource({ name: "program.lez", bytes }, image, input, label);
}

/** Compares all answers on a client, a program or a text on an image. */
function compareSource(source, image, input, label) {
  const { name } = source;
  put(name, source.bytes);
  put("image", image);
  put("input", input);
  const isSound = module.check(image).status === 0;
  const warnings = name.endsWith(".lez") ? compareCompiled(source, image, isSound, label) : "";
  const verified = module.verify(image, source);
  same(verified, ["verify", "image", name], label, warnings);
  if (isSound) {
    assert.deepEqual(module.verify(image.slice(0, 704), source, { checked: true }), verified, label);
  }
  if (verified.status === 0) {
    compareCosts(decoded(verified.text), label);
  }
  same(module.run(image, source, input), ["run", "image", "OUT", name, "--input", "input"], label, warnings);
  const traced = module.trace(image, source, input, 0, 1_000_000);
  same(traced, ["trace", "image", name, "--input", "input"], label, warnings);
  if (traced.status === 0) {
    compareSteps(source, image, input, decoded(traced.text), label);
  }
}

/** Compares the client of a program for an image and for none, or its errors. Returns its warnings for the image. */
function compareCompiled(program, image, isSound, label) {
  const { name } = program;
  sameCompiled(module.compile(program, nothing), ["compile", name, "OUT"], label);
  const compiled = module.compile(program, image);
  sameCompiled(compiled, ["compile", name, "OUT", "--on", "image"], label);
  if (isSound) {
    assert.deepEqual(module.compile(program, image.slice(0, 704), { checked: true }), compiled, label);
  }
  return compiled.status === 0 ? decoded(compiled.text) : "";
}

function sameCompiled(answer, words, label) {
  const text = decoded(answer.text);
  if (answer.status === 0) {
    same({ ...answer, text: nothing }, words, label, text);
  } else {
    same(answer, words, label);
  }
  if (answer.status === 0 || answer.status === WRONG) {
    const heads = linesOf(text).filter((line) => /^program\.lez:\d+:\d+: (error|warning): /.test(line));
    assert.equal(problemsOf(text).length, heads.length, label);
  }
}

/** The steps of all lines are those of the client. */
function compareCosts(text, label) {
  const { whole, steps } = costsOf(text);
  assert.ok(text.startsWith(`steps ${whole}\n`), label);
  if (steps.size > 0) {
    assert.equal([...steps.values()].reduce((sum, it) => sum + it, 0n), whole, label);
  }
}

/** Compares parts of a trace with the whole, and the image at its end with that of a run. */
function compareSteps(source, image, input, whole, label) {
  const count = traceOf(whole).length;
  const middle = Math.floor(count / 2);
  const begun = module.trace(image, source, input, 0, middle);
  assert.equal(begun.status, middle < count ? STOPPED : 0, label);
  const rest = module.trace(image, source, input, middle, count + 1);
  assert.equal(decoded(begun.text) + decoded(rest.text), whole, label);
  const ran = module.run(image, source, input);
  const last = module.imageAfter(image, source, input, count);
  // objects that registers own at the end are destroyed only by the run
  if (module.check(last.file).status === 0) {
    assert.deepEqual(last.file, ran.file, label);
  }
  assert.deepEqual(module.imageAfter(image, source, input, count + 1000).file, last.file, label);
}

function created(size, allocator, index) {
  const [algorithm, kind] = [["seq", "best"][allocator], ["flat", "tree"][index]];
  const answer = module.create(size, allocator, index);
  same(answer, ["new", "OUT", String(size), algorithm, kind], "new");
  return answer.file;
}

const EXAMPLES = ["cache", "configure", "settings", "count", "increment", "publish", "notice"];

/** Images on which each example ran. */
function compareExamples() {
  const images = [read("counter.image")];
  const input = encoder.encode("abcada");
  for (const allocator of [0, 1]) {
    for (const index of [0, 1]) {
      for (const names of [["cache"], ["configure", "settings"], ["publish", "notice"], ["count"]]) {
        let image = created(4096, allocator, index);
        for (const name of names) {
          compareText(read(`${name}.text`), image, input, name);
          const program = { name: "program.lez", bytes: read(`${name}.lez`) };
          compareSource(program, image, input, name);
          image = module.run(image, program, input).file;
        }
        compareImage(image, names.join("+"));
        images.push(image);
      }
    }
  }
  created(736, 0, 0);
  same(module.create(735, 0, 0), ["new", "OUT", "735", "seq", "flat"], "new");
  for (const image of images) {
    for (const name of EXAMPLES) {
      compareText(read(`${name}.text`), image, nothing, name);
      compareProgram(read(`${name}.lez`), image, nothing, name);
    }
  }
  return images;
}

/** The images that the tests of the checker describe, and clients on some. */
function compareTestImages() {
  let sound = 0;
  for (const name of readdirSync(imagesFolder).sort()) {
    const image = new Uint8Array(readFileSync(`${imagesFolder}/${name}`));
    sound += Number(compareImage(image, name));
    if (name.endsWith("0.image")) {
      compareText(read("count.text"), image, nothing, name);
    }
  }
  return sound;
}

/** Images with random bytes changed. */
function compareRandomImages(images, count) {
  const random = new Random(1);
  let sound = 0;
  for (let number = 0; number < count; number++) {
    const image = images[random.below(images.length)].slice();
    for (let changes = 1 + random.below(3); changes > 0; changes--) {
      const at = random.below(4) === 0 ? random.below(80) : 704 + random.below(image.length - 704);
      image[at] = random.below(2) === 0 ? random.below(256) : image[at] ^ (1 << random.below(8));
    }
    const cut = random.below(20) === 0 ? image.slice(0, random.below(image.length)) : image;
    sound += Number(compareImage(cut, `random image ${number}`));
  }
  return sound;
}

/** Texts and clients with random changes. */
function compareRandomTexts(images, count) {
  const random = new Random(2);
  for (let number = 0; number < count; number++) {
    const image = images[random.below(images.length)];
    const text = read(`${EXAMPLES[random.below(EXAMPLES.length)]}.text`);
    const lines = decoded(text).split("\n");
    const at = random.below(lines.length);
    if (random.below(2) === 0) {
      lines[at] = lines[at].replace(/[a-zA-Z0-9]+/, () => ["r1", "r16", "t0", "END", "k1", "ADD", "-", "7"][random.below(8)]);
    } else {
      lines.splice(at, random.below(2), ...lines.slice(random.below(lines.length)).slice(0, 1));
    }
    compareText(encoder.encode(lines.join("\n")), image, nothing, `random text ${number}`);
    const client = module.assemble(text).file;
    client[random.below(client.length)] = random.below(256);
    compareClient(client, image, nothing, `random client ${number}`);
  }
}

/** The programs of the tests: those that compile, and those with errors or warnings. */
function testPrograms() {
  const programs = [];
  for (const section of textOf("texts").split(/^=== /m).slice(1)) {
    const [name, ...lines] = section.split("\n");
    if (name.endsWith(".lez")) {
      programs.push(lines.join("\n"));
    }
  }
  for (const file of ["program_errors.cases", "program_warnings.cases"]) {
    for (const [, program] of textOf(file).matchAll(/^\$ (?:errors|warnings|told)\b.*\n([^]*?)^---$/gm)) {
      programs.push(program);
    }
  }
  return programs;
}

function textOf(name) {
  return readFileSync(new URL(name, tests), "utf8");
}

function compareTestPrograms(images, programs) {
  const input = encoder.encode("hello, world");
  for (const [number, program] of programs.entries()) {
    for (const image of [images[0], images[1 + (number % (images.length - 1))]]) {
      compareProgram(encoder.encode(program), image, input, `program ${number} of the tests`);
    }
  }
}

const TOKENS = ["x", "{", "}", "(", ")", "+", "7", "if ", "else ", "for ", "let ", '"', "object ", "stop", "cache", ".", "\n", "\xff", "ä"];

/** Programs with random changes. */
function compareRandomPrograms(images, programs, count) {
  const random = new Random(3);
  for (let number = 0; number < count; number++) {
    let program = programs[random.below(programs.length)];
    for (let changes = 1 + random.below(2); changes > 0; changes--) {
      const at = random.below(program.length + 1);
      const token = random.below(3) === 0 ? "" : TOKENS[random.below(TOKENS.length)];
      program = program.slice(0, at) + token + program.slice(at + random.below(4));
    }
    // each character is a byte, so that some programs aren't UTF-8
    const bytes = Uint8Array.from(program, (it) => it.charCodeAt(0));
    compareProgram(bytes, images[random.below(images.length)], encoder.encode("abca"), `random program ${number}`);
  }
}

/** An output that is too long ends the run, and leaves the module usable. */
function compareStopped() {
  const small = new Lezgauri(new WebAssembly.Module(readFileSync(modulePath)), { mostText: 2 });
  const image = read("counter.image");
  const program = { name: "increment.lez", bytes: read("increment.lez") };
  assert.equal(small.run(image, program, nothing).status, STOPPED);
  assert.equal(small.check(image).status, 0);
}

assert.ok(hasMemory64(), "this Node needs --experimental-wasm-memory64");
const images = compareExamples();
compareStopped();
const programs = testPrograms();
compareTestPrograms(images, programs);
const sound = compareTestImages();
const soundRandom = compareRandomImages(images, Number(randomCount));
compareRandomTexts(images, Math.ceil(Number(randomCount) / 10));
compareRandomPrograms(images, [...programs, ...EXAMPLES.map((name) => decoded(read(`${name}.lez`)))], Math.ceil(Number(randomCount) / 10));
console.log(`${compared} answers are segtool's; of the tests' images ${sound} are sound, of the random ones ${soundRandom}`);
