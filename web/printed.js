// Reads what `segtool` prints.

const decoder = new TextDecoder();

/** The text of bytes. */
export function decoded(bytes) {
  return decoder.decode(bytes);
}

/** The lines of a text, without their ends. */
export function linesOf(text) {
  const lines = text.split("\n");
  if (lines.at(-1) === "") {
    lines.pop();
  }
  return lines;
}

/** A refusal: its first line, the fault's number and operands, and the lines that explain it. */
export function refusalOf(text) {
  const [line = "", ...explanation] = linesOf(text);
  const found = /^(?:client \d+ )?fault (\d+)(?: (\d+))?(?: (\d+))?$/.exec(line);
  const [number, ...operands] = found ? found.slice(1).filter((it) => it !== undefined).map(Number) : [null];
  return { line, number, operands, explanation };
}

/** The position at which the checker found a fault of an image, in bytes. */
export function faultPosition({ number, operands: [operand] }) {
  const isType = number === 3;
  const isPosition = number >= 11 && number <= 17;
  if (isType) {
    return 64 + 16 * operand;
  }
  return isPosition ? operand : 0;
}

/** The values that `show` prints, as a tree: each has a `label`, a `value` and `parts`. */
export function valuesOf(text) {
  const root = { parts: [] };
  const path = [root];
  for (const line of linesOf(text)) {
    const [, spaces, deep, content] = /^( *)(?:\((\d+)\) )?(.*)$/s.exec(line);
    const level = deep === undefined ? spaces.length / 2 : Number(deep);
    const colon = content.indexOf(": ");
    const isRest = colon < 0;
    const node = {
      label: isRest ? "" : content.slice(0, colon),
      value: isRest ? content : content.slice(colon + 2),
      parts: [],
    };
    path.length = Math.min(path.length, level + 1);
    path.at(-1).parts.push(node);
    path.push(node);
  }
  return root.parts;
}

/** The owners of blocks that `map` prints: for each block in ascending order an index into the list of names, or -1. */
export function ownersOf(bytes) {
  const names = [];
  const indices = new Map();
  const owners = [];
  for (const line of linesOf(decoded(bytes))) {
    const [, name] = /^\d+ \d+ [#.]+ \w+(?: of (.*))?$/.exec(line);
    if (name === undefined) {
      owners.push(-1);
      continue;
    }
    if (!indices.has(name)) {
      indices.set(name, names.length);
      names.push(name);
    }
    owners.push(indices.get(name));
  }
  return { names, owners: Int32Array.from(owners) };
}

/**
 * The instructions that `trace` prints, each with the line of the program or text that it comes from, if there is one, with the
 * registers' contents and variables, and with the output.
 */
export function traceOf(text) {
  const performed = [];
  for (const line of linesOf(text)) {
    if (line.startsWith("out ")) {
      performed.at(-1).output = line.slice("out ".length);
      continue;
    }
    const [, source, step, instruction, rest] = /^(?: *(\d+) )? *(\d+|-) +(\d+) {2}(\S.*)$/.exec(line);
    const [, code, registers] = /^(.*?)(?: *; (r\d+ .*))?$/.exec(rest);
    performed.push({
      line: source === undefined ? null : Number(source),
      step: step === "-" ? null : Number(step),
      instruction: Number(instruction),
      code,
      registers: registersOf(registers),
      output: null,
    });
  }
  return performed;
}

function registersOf(text) {
  const registers = new Map();
  for (const part of text === undefined ? [] : text.split(/, (?=r\d+ )/)) {
    const [, register, variable = "", content] = /^(r\d+) (?:(\w+) )?((?:=|->|reads|owns) .*)$/.exec(part);
    registers.set(register, { variable, content });
  }
  return registers;
}

/** What `verify --explain` prints: the most steps, for each line with instructions its steps, and the loops that cost the most. */
export function costsOf(text) {
  const [first, ...rows] = linesOf(text);
  const steps = new Map();
  const loops = [];
  for (const row of rows) {
    const cost = /^ *(\d+) +\d+ +(\d+)(?: {2}|$)/.exec(row);
    const loop = /^the loop of line (\d+): (.*)$/.exec(row);
    if (cost !== null) {
      steps.set(Number(cost[2]), BigInt(cost[1]));
    } else if (loop !== null) {
      loops.push({ line: Number(loop[1]), words: loop[2] });
    }
  }
  return { whole: BigInt(first.slice("steps ".length)), steps, loops };
}

/** The errors or warnings of a program: the position of each, its message, how many characters it is about, and a hint or "". */
export function problemsOf(text) {
  const lines = linesOf(text);
  const problems = [];
  for (let at = 0; at < lines.length; at++) {
    const head = /^.*?:(\d+):(\d+): (error|warning): (.*)$/.exec(lines[at]);
    const hint = /^hint: (.*)$/.exec(lines[at]);
    if (head !== null) {
      const [, line, column, kind, message] = head;
      // the line of the program, and carets under a part of it
      const width = /^[ \t]*(\^+)$/.exec(lines[at + 2] ?? "")?.[1].length ?? 0;
      problems.push({ line: Number(line), column: Number(column), kind, message, width, hint: "" });
      at += width > 0 ? 2 : 0;
    } else if (hint !== null) {
      problems.at(-1).hint = hint[1];
    }
  }
  return problems;
}
