// What stands in a journal that `rcv run` wrote. The journal says how far each role went back; the page looks up which
// of its lines that undoes, and compares how many these are with the number in the journal.
'use strict';

/** The last lines of a journal, one for each role and one for the session, have fewer letters. */
const LONGEST_END = 4096;
const ROLE_LINE = /^role (\w+) kept (\d+) raw (\d+) (\w+)$/;
const RECOVER_LINE = /^recover (\w+) undone (\d+):(.*)$/;

/** A journal, read as far as it is asked. */
class Journal {
  #text;
  #end;
  #events = new Map();
  #undone = null;

  constructor(text) {
    this.#text = text;
    this.#end = text.slice(-LONGEST_END).trimEnd().split('\n');
  }

  /** How the session ended: `completed`, or `limited` and the roles that came to the limit. */
  get last() {
    return this.#end[this.#end.length - 1];
  }

  /** Each role in the order of the text, and how many events it made. */
  get roles() {
    const found = this.#end.map((line) => ROLE_LINE.exec(line)).filter(Boolean);
    return found.map(([, role, , raw]) => ({ role, raw: Number(raw) }));
  }

  /** What its `recover` lines undo: see `undoneOf`. */
  get undone() {
    this.#undone ??= undoneOf(this.#text);
    return this.#undone;
  }

  /** The lines of the events that a role made, undone ones too. */
  eventsOf(role) {
    if (!this.#events.has(role)) {
      const lines = new RegExp(`^(?:send|recv) ${role} .*$`, 'gm');
      this.#events.set(role, this.#text.match(lines) ?? []);
    }
    return this.#events.get(role);
  }

  /** An event in plain words. A point has one sender and one receiver: a line of the other one names it, if it came. */
  wordsOf(event) {
    const [kind, , point, label] = event.split(' ');
    const [does, other, way] = kind === 'send' ? ['sends', 'recv', 'to'] : ['receives', 'send', 'from'];
    const found = new RegExp(`^${other} (\\w+) ${point} `, 'm').exec(this.#text);
    return found ? `${does} ${label} ${way} ${found[1]}` : `${does} ${label}`;
  }
}

/**
 * What the `recover` lines of a journal undo: the numbers of the lines of undone events, each recovery, and whether
 * each undoes as many events as its line says. One pass: an event is taken up once, and undone once at most.
 */
function undoneOf(text) {
  const kept = new Map();
  const lines = new Set();
  const recoveries = [];
  let number = 0;
  // Most long journals have no recovery.
  for (const line of text.includes('\nrecover ') ? text.split('\n') : []) {
    number += 1;
    if (line.startsWith('send ') || line.startsWith('recv ')) {
      const role = line.slice(5, line.indexOf(' ', 5));
      if (!kept.has(role)) kept.set(role, []);
      kept.get(role).push(number);
    } else if (line.startsWith('recover ')) {
      recoveries.push(recoveryOf(line, kept, lines));
    }
  }
  return { lines, recoveries, isSame: recoveries.every(({ isSame }) => isSame) };
}

/** Takes the events that a `recover` line undoes from those that are kept, and notes the numbers of their lines. */
function recoveryOf(line, kept, undone) {
  const [, role, count, named] = RECOVER_LINE.exec(line);
  const words = named.trim().split(' ');
  const cuts = [];
  for (let at = 0; at + 1 < words.length; at += 2) {
    const number = Number(words[at + 1]);
    const lost = kept.get(words[at])?.splice(number) ?? [];
    for (const it of lost) undone.add(it);
    cuts.push({ role: words[at], kept: number, lost: lost.length });
  }
  const sum = cuts.reduce((before, { lost }) => before + lost, 0);
  return { line, role, cuts, sum, isSame: sum === Number(count) };
}
