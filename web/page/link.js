// A link that carries the text: behind the `#` of the address, which no browser sends.
'use strict';

const LINK_WORD = '#text=';
/** No program takes a longer text, so no link has one. */
const LINKED = 1 << 20;
/** Longer ones are cut off by some programs. */
const LONG_LINK = 8000;

/** Returns the end of the address that carries a text. */
async function hashOf(text) {
  const letters = lettersOfBytes(await zipped(new TextEncoder().encode(text)));
  return LINK_WORD + letters.replace(/\+/g, '-').replace(/\//g, '_').replace(/=+$/, '');
}

/** Returns the text that the end of an address carries, or null where it carries none. Throws where it is damaged. */
async function textOfHash(hash) {
  if (!hash.startsWith(LINK_WORD)) return null;
  const letters = hash.slice(LINK_WORD.length).replace(/-/g, '+').replace(/_/g, '/');
  const bytes = await unzipped(bytesOfLetters(letters), LINKED);
  return new TextDecoder('utf-8', { fatal: true }).decode(bytes);
}

/** The box that shows a link. */
class LinkBox {
  #box = byId('linked');
  #field = byId('link-text');
  #note = byId('link-note');
  /** The text that the address carries, or null. */
  #carried = null;

  constructor() {
    byId('copy-link').addEventListener('click', () => this.#copy());
    byId('close-link').addEventListener('click', () => {
      this.close();
      byId('link').focus();
    });
  }

  /** Puts a text into the address, and shows it. */
  async show(text) {
    this.#carried = text;
    const hash = await hashOf(text);
    // The text may have changed meanwhile.
    if (this.#carried !== text) return;
    history.replaceState(null, '', hash);
    const { href } = location;
    this.#field.value = href;
    const isLong = href.length > LONG_LINK;
    this.#note.textContent = isLong ? `It has ${counted(href.length)} letters; some programs cut long links.` : '';
    this.#box.hidden = false;
    this.#field.select();
  }

  /** Takes note of the text that the address was opened with, or that stands here as its link is damaged. */
  carry(text) {
    this.#carried = text;
  }

  /** Where the text is another one, no link says what it was. */
  follow(text) {
    if (text === this.#carried) return;
    this.#carried = null;
    this.close();
    if (location.hash.startsWith(LINK_WORD)) history.replaceState(null, '', location.href.split('#')[0]);
  }

  async #copy() {
    this.#field.select();
    try {
      await navigator.clipboard.writeText(this.#field.value);
      this.#note.textContent = 'Copied.';
    } catch {
      this.#note.textContent = 'Copy it by the keyboard: it is selected.';
    }
  }

  close() {
    this.#box.hidden = true;
  }
}
