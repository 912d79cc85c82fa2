// Runs rcv and rcv-show in the page: each call in a worker, on an instance of its own.
//
// The modules come from web/module/make. The worker is made of this file's own text, so that a page of one file,
// opened from disk, needs nothing beside it. A call that takes too long is ended with its worker by `end`; the modules
// are compiled once, and kept for the next worker.

'use strict';

/** Why a call gave no answer: `end` was called before there was one. */
class Ended extends Error {
  constructor() {
    super('ended before it had answered');
    this.name = 'Ended';
  }
}

/**
 * What the worker does. Only the text of this function reaches the worker: it can use nothing from outside itself.
 *
 * The worker is sent the modules by name, and says that it is ready. Each further message is a call, and is answered by
 * `{status, bytes, milliseconds}`, or by `{fault}`, in words, where the program came to no status.
 */
function work() {
  'use strict';
  const coder = new TextEncoder();
  let modules = null;

  /** Copies bytes into the memory of an instance, and returns where they stand. */
  function put(exports, bytes) {
    const at = exports.room(BigInt(bytes.length));
    if (at === 0n) throw new Error('the browser gave no memory for the input');
    new Uint8Array(exports.memory.buffer, Number(at), bytes.length).set(bytes);
    return at;
  }

  /** Runs the program to its end, and returns its status. Fails where it doesn't end by itself. */
  function statusOf(exports) {
    try {
      exports.run();
    } catch (error) {
      // Each end is a trap. Behind an end that the program asked for stands its status, which isn't negative.
      const status = exports.status();
      if (status >= 0) return status;
      throw error;
    }
  }

  /** Runs a program on words and an input, and returns its status and its output. */
  function run(name, words, input) {
    const { exports } = new WebAssembly.Instance(modules[name], {});
    const line = [name, ...words];
    exports.words(put(exports, coder.encode(line.map((word) => `${word}\0`).join(''))), BigInt(line.length));
    exports.input(put(exports, input), BigInt(input.length));
    const status = statusOf(exports);
    const [at, length] = [exports.output(), exports.output_length()].map(Number);
    // A copy: a view would keep the whole memory.
    return { status, bytes: new Uint8Array(exports.memory.buffer, at, length).slice() };
  }

  /** Says in words why a program came to no status. */
  function faultOf(name, error) {
    if (error instanceof RangeError) return `the browser gave ${name} too little memory: ${error.message}`;
    if (error instanceof WebAssembly.RuntimeError) return `${name} was stopped: ${error.message}`;
    return `${name} was stopped: ${error}`;
  }

  onmessageerror = () => postMessage({ fault: 'this browser gives no compiled program to a worker' });

  onmessage = ({ data }) => {
    if (modules === null) {
      modules = data;
      postMessage({ ready: true });
      return;
    }
    const { name, words, input } = data;
    const began = performance.now();
    try {
      const { status, bytes } = run(name, words, input);
      postMessage({ status, bytes, milliseconds: performance.now() - began }, [bytes.buffer]);
    } catch (error) {
      postMessage({ fault: faultOf(name, error) });
    }
  };
}

/** The programs, ready to be called. */
class Programs {
  /** The compiled modules, by name. */
  #modules;
  /** Where the worker's text is found. */
  #address = URL.createObjectURL(new Blob([`(${work})()`], { type: 'text/javascript' }));
  /** The worker, or null where the next call has to start one. */
  #worker = null;
  /** The calls without an answer, in the order in which the worker takes them. */
  #waiting = [];

  /** Only `open` makes one: it knows that the modules run here. */
  constructor(modules) {
    this.#modules = modules;
  }

  /**
   * Compiles modules, each of which is zipped by gzip, and starts a worker with them.
   * Rejects with a reason in words where this browser can't run them.
   */
  static async open(modules) {
    const lack = Programs.#lack();
    if (lack) throw new Error(`This browser can't run the programs: it has no ${lack}.`);
    const compiled = {};
    for (const [name, zipped] of Object.entries(modules)) compiled[name] = await Programs.#compile(name, zipped);
    const programs = new Programs(compiled);
    await programs.#start();
    return programs;
  }

  /** What this browser lacks for any of the modules, or nothing. */
  static #lack() {
    if (typeof WebAssembly === 'undefined') return 'WebAssembly';
    if (typeof Worker === 'undefined') return 'workers';
    if (typeof DecompressionStream === 'undefined') return 'DecompressionStream, which unzips the programs';
    // A module of one memory, with 64-bit addresses and no page.
    const module = Uint8Array.of(0, 0x61, 0x73, 0x6d, 1, 0, 0, 0, 5, 3, 1, 4, 0);
    return WebAssembly.validate(module) ? '' : 'WebAssembly with 64-bit memories';
  }

  /** Unzips and compiles a module. */
  static async #compile(name, zipped) {
    try {
      const bytes = new Response(new Blob([zipped]).stream().pipeThrough(new DecompressionStream('gzip')));
      return await WebAssembly.compile(await bytes.arrayBuffer());
    } catch (error) {
      throw new Error(`This browser can't compile ${name}: ${error.message}`);
    }
  }

  /** Starts a worker, and resolves when it has the modules. */
  #start() {
    return new Promise((resolve, reject) => {
      const worker = new Worker(this.#address);
      this.#worker = worker;
      this.#waiting.push({ resolve, reject });
      worker.onmessage = ({ data }) => {
        // A message of a worker that was ended meanwhile answers no call that waits now.
        if (worker === this.#worker) this.#settle(data);
      };
      worker.onerror = (event) => {
        event.preventDefault();
        const reason = event.message || 'it was not started';
        if (worker === this.#worker) this.#drop(new Error(`The worker that runs the programs failed: ${reason}`));
      };
      worker.postMessage(this.#modules);
    });
  }

  /** Gives the call that waits longest its answer. */
  #settle(answer) {
    const { resolve, reject } = this.#waiting.shift();
    if (answer.fault) reject(new Error(answer.fault));
    else resolve(answer);
  }

  /** Ends the worker; the calls without an answer fail, for this reason. */
  #drop(reason) {
    if (this.#worker) this.#worker.terminate();
    this.#worker = null;
    for (const { reject } of this.#waiting.splice(0)) reject(reason);
  }

  /**
   * What the program `name`, `rcv` or `rcv-show`, answers to words and an input, a text or bytes: its status, the bytes
   * of its standard output, and how long it took. Calls are answered in their order.
   * Rejects where the program came to no status, and with `Ended` where `end` was called meanwhile.
   */
  answer(name, words, input) {
    if (!Object.hasOwn(this.#modules, name)) return Promise.reject(new Error(`There is no program ${name}.`));
    if (words.some((word) => word.includes('\0'))) return Promise.reject(new Error('A word can have no zero in it.'));
    // The caller keeps the bytes, so the worker is given a copy.
    const bytes = typeof input === 'string' ? new TextEncoder().encode(input) : input.slice();
    // Where that fails, so does this call, as the worker's reason reaches all that wait.
    if (!this.#worker) this.#start().catch(() => {});
    return new Promise((resolve, reject) => {
      this.#worker.postMessage({ name, words, input: bytes }, [bytes.buffer]);
      this.#waiting.push({ resolve, reject });
    });
  }

  /** Ends the worker at once: the calls without an answer reject with `Ended`, and the next one starts a new worker. */
  end() {
    this.#drop(new Ended());
  }
}
