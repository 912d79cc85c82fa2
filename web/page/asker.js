// Asks the programs: what is known is answered from the page, the rest by the programs in it.
'use strict';

/** How long a program may take, in seconds. */
const PATIENCE = 20;
/** How many letters of answers are kept. */
const KEPT = 64e6;
/** A call that has just begun goes on where it is stale, as it costs less than a new start, in milliseconds. */
const JUST_BEGUN = 150;

/** A program was ended before it had answered: by the reader, by a newer text, or as it took too long. */
class Stopped extends Error {
  constructor(call, reason) {
    super(reason);
    this.name = 'Stopped';
    this.call = call;
    this.reason = reason;
  }
}

/** Whom to ask what a program answers. */
class Asker {
  /** The examples, and the programs or null. */
  examples = null;
  programs = null;
  isOpening = true;
  /** Is told when a call begins and ends: {call, since} or null. */
  onwork = () => {};
  #answers = new Map();
  #letters = 0;
  #running = null;

  /** Whether any text can be asked about. */
  get isFree() {
    return this.programs !== null;
  }

  /**
   * What a call answers to a text: its status, its output as a text (and as bytes, where a program here wrote it), and
   * how many milliseconds it took, or null where the answer came with the page. A journal behind the text is the one
   * that `rcv run` writes for it.
   */
  async ask(call, text, journal) {
    const known = this.examples.answer(call, text);
    if (known) return { ...known, milliseconds: null };
    if (!this.programs) throw new Error(this.#lack);
    const key = `${call}\n${text}`;
    const kept = this.#answers.get(key);
    if (kept) return kept;
    const answer = await this.#run(call, journal === undefined ? text : behind(text, journal));
    this.#keep(key, answer);
    return answer;
  }

  get #lack() {
    if (this.isOpening) return 'The programs are being opened ..';
    return 'This text is none of the examples, and no program runs here that could answer.';
  }

  async #run(call, input) {
    const [program, ...words] = call.split(' ');
    const running = { call, since: performance.now(), reason: 'stale' };
    this.#running = running;
    const limit = setTimeout(() => this.stop('late'), PATIENCE * 1000);
    this.onwork(running);
    try {
      const answer = await this.programs.answer(program, words, input);
      return { ...answer, text: new TextDecoder().decode(answer.bytes) };
    } catch (error) {
      throw error instanceof Ended ? new Stopped(call, running.reason) : error;
    } finally {
      clearTimeout(limit);
      if (this.#running === running) {
        this.#running = null;
        this.onwork(null);
      }
    }
  }

  /** Keeps an answer, and forgets the oldest where they become too long. */
  #keep(key, answer) {
    this.#answers.set(key, answer);
    this.#letters += key.length + answer.text.length;
    for (const [old, { text }] of this.#answers) {
      if (this.#letters <= KEPT) break;
      this.#answers.delete(old);
      this.#letters -= old.length + text.length;
    }
  }

  /** Ends the call that runs, for a reason: `stale`, `asked` or `late`. */
  stop(reason) {
    const running = this.#running;
    if (!running || (reason === 'stale' && performance.now() - running.since < JUST_BEGUN)) return;
    running.reason = reason;
    this.programs.end();
  }
}

/** A text with a journal behind it, as `rcv-show journal` reads it. */
function behind(text, journal) {
  return `${text}${text.endsWith('\n') ? '' : '\n'}%% journal\n${journal}`;
}
