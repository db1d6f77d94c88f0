// Makes the module's calls apart from the page, so that the page answers while a client runs.
import { Lezgauri } from "./lezgauri.js";

const calls = load();

async function load() {
  const response = await fetch("out/lezgauri.wasm");
  if (!response.ok) {
    throw new Error(`out/lezgauri.wasm: ${response.status} ${response.statusText}`);
  }
  // not compileStreaming, which some static hosts don't serve the right type for
  const module = await WebAssembly.compile(await response.arrayBuffer());
  return new Lezgauri(module);
}

addEventListener("message", async ({ data: { number, call, values } }) => {
  try {
    const answer = (await calls)[call](...values);
    postMessage({ number, answer }, buffersOf(answer));
  } catch (error) {
    postMessage({ number, error: error.message });
  }
});

function buffersOf({ text, file }) {
  return file === null ? [text.buffer] : [text.buffer, file.buffer];
}
