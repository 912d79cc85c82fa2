// The examples, with what the programs answered to them when the page was made. web/examples.py makes them, and tells
// their form.
'use strict';

/** The texts that are in the page, and the answers to them. */
class Examples {
  #whole;
  #lines;
  /** Of each text its place in the list. */
  #places = new Map();

  constructor(whole) {
    this.#whole = whole;
    this.#lines = whole.lines.split('\n');
    const texts = whole.texts.map(([numbers]) => this.#textOf(numbers));
    texts.forEach((text, at) => this.#places.set(text, at));
    /** The text to begin one's own with. */
    this.own = texts[whole.new];
    /** Each example: its name, its group, what it shows, and its text. */
    this.list = whole.examples.map(([name, group, shows, at]) => ({ name, group, shows, text: texts[at] }));
  }

  /** Reads them from the letters that they are in. */
  static async open(letters) {
    const bytes = await unzipped(bytesOfLetters(letters));
    return new Examples(JSON.parse(new TextDecoder().decode(bytes)));
  }

  #textOf(numbers) {
    return numbers.map((number) => this.#lines[number]).join('\n');
  }

  /** Whether a text is one of them, or one of them with a crash. */
  has(text) {
    return this.#places.has(text);
  }

  /** Returns the status and the output of a call for a text, or nothing where they aren't here. */
  answer(call, text) {
    const row = this.#whole.texts[this.#places.get(text)];
    return row && (this.#answerIn(row, call) ?? this.#answerIn(this.#whole.texts[row[1]], call));
  }

  /** The row of a text has its lines, the row of the same text without a crash, and then calls and answers by turns. */
  #answerIn(row, call) {
    const number = this.#whole.calls.indexOf(call);
    for (let at = 2; at < row.length; at += 2) {
      if (row[at] === number) {
        const [status, ...numbers] = this.#whole.answers[row[at + 1]];
        return { status, text: this.#textOf(numbers) };
      }
    }
    return undefined;
  }
}
