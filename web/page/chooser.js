// The list of the examples, and of the reader's own texts.
'use strict';

/** What an own text is called in the list; each but the first has a number besides. */
const OWN_NAME = 'your own text';

const GROUPS = ['With a crash', 'Without a crash', 'Refused'];

/** Which text is chosen, and what is said of it. */
class Chooser {
  /** Is told the name of the text that the reader chose. */
  onchange = () => {};
  #own;
  #name = null;
  /** Stands for a text that isn't in the list: a new one, or one of a link. */
  #none = element('option', { value: '', hidden: true, disabled: true });
  #examples;
  #select = byId('example');
  #shows = byId('shows');
  #reset = byId('reset');

  /** Of the examples, and the own texts. */
  constructor(examples, own) {
    this.#examples = examples;
    this.#own = own;
    this.#select.append(this.#none);
    for (const label of GROUPS) {
      const names = examples.list.filter((it) => it.group === label).map((it) => it.name);
      const options = names.map((name) => new Option(Chooser.#wordsOf(name), name));
      this.#select.append(element('optgroup', { label }, ...options));
    }
    this.#select.addEventListener('change', () => this.onchange(this.#select.value));
    this.#reset.addEventListener('click', () => this.onchange(this.#select.value));
  }

  static #wordsOf(name) {
    return name.replace('.refused', '').replace(/_/g, ' ');
  }

  /** The text with a name, or nothing. */
  textOf(name) {
    return this.#exampleOf(name)?.text ?? this.#own.textOf(name);
  }

  #exampleOf(name) {
    return this.#examples.list.find((it) => it.name === name);
  }

  /** The name of the text that stands here, or null. The list may say already what is wanted in its place. */
  get name() {
    return this.#name;
  }

  set name(name) {
    this.#showOwn();
    this.#name = this.textOf(name) === undefined ? null : name;
    this.#select.value = this.#name ?? '';
  }

  /** Whether it is the name of an own text. */
  isOwn(name) {
    return this.#own.textOf(name) !== undefined;
  }

  /** Whether a text needs no keeping: it is an example, or the one to begin with, or one of them with another crash. */
  isKnown(text) {
    return this.#examples.has(text);
  }

  /** Shows the own texts above the examples. */
  #showOwn() {
    const shown = [...this.#select.children].filter((it) => it.value?.startsWith(OWN_NAME));
    const { names } = this.#own;
    if (names.join() === shown.map((it) => it.value).join()) return;
    const { value } = this.#select;
    for (const it of shown) it.remove();
    this.#none.after(...names.map((name) => new Option(name, name)));
    this.#select.value = value;
  }

  /** Says what a text is: the example that is chosen, also with other crashes, or a changed one, or an own text. */
  tell(text) {
    const example = this.#exampleOf(this.name);
    this.#none.textContent = text === this.#examples.own ? 'a new text' : 'another text';
    this.#reset.hidden = !example || example.text === text;
    this.#shows.textContent = example ? this.#toldOf(example, text) : this.#toldOfOwn(text);
  }

  #toldOf({ name, shows }, text) {
    const isExample = crashesOf(text).length <= MOST_ROWS && this.#examples.has(withoutCrashes(text));
    return isExample ? shows : `Changed: it began as the example ${Chooser.#wordsOf(name)}.`;
  }

  #toldOfOwn(text) {
    return text === this.#examples.own ? 'A text to begin with.' : '';
  }
}
