// What is kept while this tab is open: the text that stands here, so that it does so again where the page is loaded
// anew, and the reader's own texts, so that none is lost where another text is chosen.
'use strict';

const KEPT_TEXT = 'rcv text';
const KEPT_OWN = 'rcv own texts';
/** How long after the last change it is kept. */
const KEEP_AFTER = 300;
/** How many own texts are kept. */
const MOST_OWN = 8;

/** Keeps something in this tab under a name. Returns whether it is kept. */
function keepInTab(name, value) {
  try {
    sessionStorage.setItem(name, JSON.stringify(value));
    return true;
  } catch {
    // Some browsers keep nothing for a file, and none keeps a huge text.
    return false;
  }
}

/** Returns what this tab keeps under a name, or null. */
function keptInTab(name) {
  try {
    return JSON.parse(sessionStorage.getItem(name));
  } catch {
    return null;
  }
}

/** The text of this tab: `{text, name, isTyped}`, with the name that it has in the list, or null. */
class KeptText {
  #timer = null;
  #next = null;

  constructor() {
    addEventListener('pagehide', () => this.#write());
  }

  keep(kept) {
    clearTimeout(this.#timer);
    this.#next = kept;
    this.#timer = setTimeout(() => this.#write(), KEEP_AFTER);
  }

  #write() {
    clearTimeout(this.#timer);
    if (this.#next) keepInTab(KEPT_TEXT, this.#next);
    this.#next = null;
  }

  /** Returns what was kept when this tab last had the page, or null. */
  read() {
    return keptInTab(KEPT_TEXT);
  }

  /** Whether the page was only loaded again, and not opened. */
  get isAgain() {
    const [{ type }] = performance.getEntriesByType('navigation');
    return type !== 'navigate';
  }
}

/** The reader's own texts, the newest last: each has a name, and whether the reader typed it. */
class OwnTexts {
  #list;
  #timer = null;

  constructor() {
    const list = keptInTab(KEPT_OWN);
    this.#list = Array.isArray(list) ? list : [];
    addEventListener('pagehide', () => this.#write());
  }

  get names() {
    return this.#list.map((it) => it.name);
  }

  /** The text with this name, or nothing. */
  textOf(name) {
    return this.#list.find((it) => it.name === name)?.text;
  }

  /** Takes a text. One that wasn't typed makes none give way that was. Returns its name, or null. */
  add(text, isTyped) {
    const known = this.#list.find((it) => it.text === text);
    if (known) return known.name;
    const place = isTyped ? -1 : this.#list.findIndex((it) => !it.isTyped);
    if (place >= 0) this.#list.splice(place, 1);
    if (this.#list.length >= MOST_OWN) {
      const others = this.#list.findIndex((it) => !it.isTyped);
      if (others < 0 && !isTyped) return null;
      this.#list.splice(Math.max(0, others), 1);
    }
    const name = this.#freeName();
    this.#list.push({ name, text, isTyped });
    this.#keep();
    return name;
  }

  /** A name with a higher number than those of the list. */
  #freeName() {
    const last = this.#list.map((it) => Number(it.name.slice(OWN_NAME.length)) || 1);
    const number = Math.max(0, ...last) + 1;
    return number === 1 ? OWN_NAME : `${OWN_NAME} ${number}`;
  }

  /** Takes what the reader made of the text with this name. An empty one isn't worth the loss of the other. */
  change(name, text, isTyped) {
    const own = this.#list.find((it) => it.name === name);
    if (!own || own.text === text || text.trim() === '') return;
    own.text = text;
    own.isTyped ||= isTyped;
    this.#keep();
  }

  #keep() {
    clearTimeout(this.#timer);
    this.#timer = setTimeout(() => this.#write(), KEEP_AFTER);
  }

  /** Where they are too much for the browser it keeps the newest ones. */
  #write() {
    clearTimeout(this.#timer);
    for (let from = 0; from < this.#list.length; from += 1) {
      if (keepInTab(KEPT_OWN, this.#list.slice(from))) return;
    }
  }
}
