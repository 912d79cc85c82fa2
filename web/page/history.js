// The texts that stood in the editor, for undo and redo. The browser's own undo knows nothing of what a slider or a
// list wrote into the text, and would damage it.
'use strict';

/** Changes of one kind make one step, if no longer pause is between them, in milliseconds. */
const STEP_PAUSE = 700;
/** How many texts are kept, and how many letters of them. */
const MOST_STEPS = 1000;
const MOST_LETTERS = 24e6;

/** Snapshots, each `{text, from, to, tag}`: a text, what was selected in it, and what the page notes with it. */
class TextHistory {
  #steps = [{ text: '', from: 0, to: 0, tag: null }];
  #at = 0;
  #letters = 0;
  /** The kind of the last change and when it was; '' where the next one begins a step in any case. */
  #kind = '';
  #since = 0;
  #isHeld = false;

  get now() {
    return this.#steps[this.#at];
  }

  /** Takes note of what is selected, so that undo comes back to it. */
  select(from, to) {
    Object.assign(this.now, { from, to });
  }

  /** Takes a changed text. Those of one kind, other than '', make one step together. */
  add(text, from, to, kind) {
    if (text === this.now.text) return;
    const isNear = performance.now() - this.#since < STEP_PAUSE;
    const isSame = this.#kind !== '' && (this.#isHeld || (kind === this.#kind && isNear));
    const { tag } = this.now;
    this.#drop(this.#at + (isSame ? 0 : 1), Infinity);
    this.#steps.push({ text, from, to, tag });
    this.#letters += text.length;
    this.#kind = this.#isHeld ? 'held' : kind;
    this.#since = performance.now();
    this.#forget();
    this.#at = this.#steps.length - 1;
  }

  #drop(at, count) {
    for (const { text } of this.#steps.splice(at, count)) this.#letters -= text.length;
  }

  /** Forgets the oldest texts where there are too many; the last change can always be undone. */
  #forget() {
    while (this.#steps.length > 2 && (this.#steps.length > MOST_STEPS || this.#letters > MOST_LETTERS)) {
      this.#drop(0, 1);
    }
  }

  /** Ends the step: the next change begins another one. */
  close() {
    this.#kind = '';
  }

  /** Whether a slider is held: what it does until it is let go is one step, however long that takes. */
  set isHeld(isHeld) {
    this.close();
    this.#isHeld = isHeld;
  }

  /** Goes back (-1) or forth (1). Returns the text there, or null at the end. */
  go(way) {
    const step = this.#steps[this.#at + way];
    if (!step) return null;
    this.close();
    this.#at += way;
    return step;
  }

  /** The oldest text is the one that stands there first: there is no way back behind it. */
  begin(text) {
    this.#steps = [{ text, from: 0, to: 0, tag: null }];
    this.#at = 0;
    this.#letters = text.length;
    this.close();
  }
}

const IS_MAC = /Mac|iP/.test(navigator.platform);

/** Which way the keys of an event go in the history: -1, 1, or 0 where they mean something else. */
function wayOfKeys(event) {
  if (event.altKey || event.isComposing || !(IS_MAC ? event.metaKey : event.ctrlKey)) return 0;
  // Letters of other alphabets are told by the place of the key.
  const key = /^[a-z]$/i.test(event.key) ? event.key.toLowerCase() : event.code.slice(-1).toLowerCase();
  if (key === 'z') return event.shiftKey ? 1 : -1;
  return key === 'y' && !IS_MAC && !event.shiftKey ? 1 : 0;
}

/** Returns the first place where two texts differ. */
function firstDifference(one, other) {
  let at = 0;
  while (at < one.length && one[at] === other[at]) at += 1;
  return at;
}
