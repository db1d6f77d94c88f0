// The module's calls, made in a worker.

/** The worker was stopped before a call returned. */
export class Stopped extends Error {}

export class Calls {
  #worker = null;
  #waiting = new Map();
  #number = 0;

  /** Makes a call of the module, and returns its answer. */
  make(call, ...values) {
    this.#worker ??= this.#started();
    const number = this.#number++;
    return new Promise((resolve, reject) => {
      this.#waiting.set(number, { resolve, reject });
      this.#worker.postMessage({ number, call, values });
    });
  }

  /** Ends the calls that are being made. */
  stop() {
    this.#fail(new Stopped("stopped"));
    // so that the next call need not wait for it
    this.#worker = this.#started();
  }

  #started() {
    const worker = new Worker(new URL("worker.js", import.meta.url), { type: "module" });
    worker.addEventListener("message", ({ data }) => this.#settle(data));
    worker.addEventListener("error", ({ message }) => this.#fail(new Error(message ?? "the worker doesn't start")));
    return worker;
  }

  #settle({ number, answer, error }) {
    // none if the worker was ended after it answered
    const waiting = this.#waiting.get(number);
    this.#waiting.delete(number);
    if (error === undefined) {
      waiting?.resolve(answer);
    } else {
      waiting?.reject(new Error(error));
    }
  }

  /** Ends the worker, and fails the calls that it was given. The next call starts another one. */
  #fail(error) {
    this.#worker?.terminate();
    this.#worker = null;
    for (const { reject } of this.#waiting.values()) {
      reject(error);
    }
    this.#waiting.clear();
  }
}
