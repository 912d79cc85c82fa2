// The text with its line numbers. Lines of a text of usual length are wrapped, and stand once more behind the text
// area, unseen, so that each number and each mark stands beside its line. A long text isn't wrapped, and only the
// numbers that are seen are drawn. Of a huge one the beginning is shown, and it can't be changed: a text area would
// hold up the browser. Undo and redo are the editor's own (history.js).
'use strict';

/** From how many letters, lines, or letters in a line on a text is long, and huge. */
const LONG = { letters: 60000, lines: 1500, width: Infinity };
const HUGE = { letters: 2 << 20, lines: 20000, width: 20000 };
/** How much of a huge text is shown. */
const SHOWN = { letters: 20000, lines: 400 };

/** Whether a text has more than these. */
function exceeds(text, { letters, lines, width }) {
  if (text.length > letters) return true;
  let count = 1;
  let from = 0;
  for (let at; (at = text.indexOf('\n', from)) >= 0; from = at + 1) {
    count += 1;
    if (count > lines || at - from > width) return true;
  }
  return text.length - from > width;
}

/** The kind of a change that the reader types: a step of its own has none. */
function kindOfInput({ inputType }) {
  if (/^insert(Text|LineBreak|CompositionText)$/.test(inputType)) return 'typed';
  return /^deleteContent(Back|For)ward$/.test(inputType) ? 'deleted' : '';
}

/** The field of the text. */
class Editor {
  /** Is told of each change that the reader makes. */
  oninput = () => {};
  /** Is told that undo or redo brought a text back, and the tag that was noted with it. */
  onrestore = () => {};
  #history = new TextHistory();
  #box;
  #area;
  #lines;
  #numbers;
  #note;
  #shown = [];
  #count = 1;
  #isLong = false;
  #isFixed = true;
  /** A huge text, of which the area has the beginning, and the text that stood here before. */
  #huge = null;
  #before = '';
  /** Of each kind of mark the lines that have it. */
  #marks = { refused: new Set(), named: new Set(), crash: new Set() };

  constructor(box) {
    this.#box = box;
    this.#area = box.querySelector('textarea');
    this.#lines = box.querySelector('.lines');
    this.#numbers = box.querySelector('.numbers');
    this.#note = box.querySelector('.huge');
    this.#area.addEventListener('beforeinput', (event) => this.#foresee(event));
    this.#area.addEventListener('input', (event) => {
      const { value, selectionStart, selectionEnd } = this.#area;
      this.#history.add(value, selectionStart, selectionEnd, kindOfInput(event));
      this.#draw();
      this.oninput();
    });
    this.#area.addEventListener('scroll', () => this.#drawNumbers());
    this.#area.addEventListener('paste', (event) => this.#insert(event, event.clipboardData));
    this.#area.addEventListener('drop', (event) => this.#insert(event, event.dataTransfer));
    this.#note.querySelector('button').addEventListener('click', () => {
      this.text = this.#before;
      this.oninput();
    });
    new ResizeObserver(() => this.#drawNumbers()).observe(box);
  }

  get text() {
    return this.#huge ?? this.#area.value;
  }

  /** Sets the text, as a step of its own. */
  set text(text) {
    this.change(text, '');
  }

  /** What undo and redo are to bring back together with the text that stands here. */
  set tag(tag) {
    this.#history.now.tag = tag;
  }

  /** Whether a slider is held, whose changes are one step. */
  set isHeld(isHeld) {
    this.#history.isHeld = isHeld;
  }

  /** Sets the text that stands here first. */
  begin(text) {
    this.#put(text);
    this.#history.begin(this.#area.value);
  }

  /** Sets the text. Changes of one kind in a row, other than '', are undone at once. */
  change(text, kind) {
    if (text === this.text) return;
    this.#remember();
    this.#put(text);
    // A huge text would take the place of all others in the history.
    const { value, selectionStart, selectionEnd } = this.#area;
    if (this.#huge === null) this.#history.add(value, selectionStart, selectionEnd, kind);
  }

  /** Undoes (-1) or redoes (1) a step. */
  go(way) {
    // The text before a huge one is still the newest of the history.
    const step = this.#huge === null ? this.#history.go(way) : this.#history.now;
    if (!step) return;
    const at = firstDifference(step.text, this.#area.value);
    this.#put(step.text);
    if (document.activeElement === this.#area) this.#area.setSelectionRange(step.from, step.to);
    this.reveal(lineAt(step.text, at));
    this.onrestore(step.tag);
  }

  /** Notes what is selected before it changes. */
  #remember() {
    if (this.#huge === null) this.#history.select(this.#area.selectionStart, this.#area.selectionEnd);
  }

  /** What the menus of the browser undo is undone here, too. */
  #foresee(event) {
    const way = { historyUndo: -1, historyRedo: 1 }[event.inputType];
    if (way) {
      event.preventDefault();
      this.go(way);
    } else if (this.#area.value === this.#history.now.text) {
      this.#remember();
    }
  }

  /** Shows a text; the cursor stays where it was, as far as that is. */
  #put(text) {
    if (text === this.text) return;
    const isHuge = exceeds(text, HUGE);
    if (isHuge) this.#before = this.#huge === null ? this.#area.value : this.#before;
    this.#huge = isHuge ? text : null;
    const { selectionStart, selectionEnd } = this.#area;
    this.#area.value = isHuge ? text.slice(0, SHOWN.letters).split('\n', SHOWN.lines).join('\n') : text;
    // Elsewhere some browsers would take this for a wish to write.
    if (document.activeElement === this.#area) this.#area.setSelectionRange(selectionStart, selectionEnd);
    this.#area.readOnly = this.#isFixed || isHuge;
    this.#note.hidden = !isHuge;
    this.#draw();
  }

  /** Whether the reader can't change it. */
  set isFixed(isFixed) {
    this.#isFixed = isFixed;
    this.#area.readOnly = isFixed || this.#huge !== null;
  }

  /** Marks lines, counted from 1, by kind. */
  mark(kind, lines) {
    const rows = this.#lines.children;
    for (const line of this.#marks[kind]) rows[line - 1]?.classList.remove(kind);
    for (const line of lines) rows[line - 1]?.classList.add(kind);
    this.#marks[kind] = new Set(lines);
    this.#area.setAttribute('aria-invalid', this.#marks.refused.size > 0);
    this.#drawNumbers();
  }

  /** Scrolls to a line. */
  reveal(line) {
    if (this.#isLong) {
      this.#area.scrollTop = (line - 1) * this.#lineHeight() - this.#area.clientHeight / 3;
      return;
    }
    const row = this.#lines.children[line - 1];
    if (!row) return;
    const top = row.offsetTop;
    const { scrollTop, clientHeight } = this.#box;
    if (top < scrollTop || top + row.offsetHeight > scrollTop + clientHeight) {
      this.#box.scrollTop = top - clientHeight / 3;
    }
  }

  /** Puts the cursor to the beginning. */
  focus() {
    this.#area.focus({ preventScroll: true });
    this.#area.setSelectionRange(0, 0);
  }

  /** Puts the cursor to a line and selects it. */
  select(line) {
    const lines = this.#area.value.split('\n');
    const from = lines.slice(0, line - 1).reduce((sum, it) => sum + it.length + 1, 0);
    this.#area.focus({ preventScroll: true });
    this.#area.setSelectionRange(from, from + (lines[line - 1] ?? '').length);
    this.reveal(line);
  }

  /** Takes what is pasted or dropped, where the area would take too long for it. */
  #insert(event, data) {
    const pasted = data?.getData('text') ?? '';
    if (this.#area.readOnly) return;
    const { value, selectionStart, selectionEnd } = this.#area;
    const text = replaced(value, selectionStart, selectionEnd, pasted.replace(/\r\n?/g, '\n'));
    if (!exceeds(text, HUGE)) return;
    event.preventDefault();
    this.text = text;
    this.oninput();
  }

  #draw() {
    const lines = this.#area.value.split('\n');
    this.#count = lines.length;
    this.#isLong = exceeds(this.#area.value, LONG);
    this.#box.classList.toggle('long', this.#isLong);
    this.#box.style.setProperty('--digits', String(lines.length).length);
    if (this.#isLong) {
      this.#lines.replaceChildren();
      this.#shown = [];
      this.#drawNumbers();
    } else {
      this.#numbers.replaceChildren();
      this.#drawLines(lines);
    }
  }

  /** Changes the lines that differ from those that stand there. */
  #drawLines(lines) {
    const shown = this.#shown;
    let first = 0;
    while (first < lines.length && first < shown.length && lines[first] === shown[first]) first += 1;
    let same = 0;
    while (
      same < lines.length - first &&
      same < shown.length - first &&
      lines[lines.length - 1 - same] === shown[shown.length - 1 - same]
    ) {
      same += 1;
    }
    const old = [...this.#lines.children].slice(first, shown.length - same);
    const changed = lines.slice(first, lines.length - same);
    const made = changed.map((line) => element('div', { textContent: line || '\u200b' }));
    const next = this.#lines.children[shown.length - same] ?? null;
    for (const it of old) it.remove();
    for (const it of made) this.#lines.insertBefore(it, next);
    this.#shown = lines;
    this.#markAgain();
  }

  /** Marks the lines that have marks by their numbers, as lines may have moved. */
  #markAgain() {
    for (const row of this.#lines.querySelectorAll('[class]')) row.removeAttribute('class');
    for (const [kind, lines] of Object.entries(this.#marks)) this.mark(kind, lines);
  }

  #lineHeight() {
    return parseFloat(getComputedStyle(this.#area).lineHeight);
  }

  /** Draws the numbers that are seen beside a long text. */
  #drawNumbers() {
    if (!this.#isLong) return;
    const height = this.#lineHeight();
    const { scrollTop, clientHeight } = this.#area;
    const first = Math.floor(scrollTop / height);
    const last = Math.min(this.#count, first + Math.ceil(clientHeight / height) + 1);
    const rows = [];
    for (let line = first + 1; line <= last; line += 1) {
      const kinds = Object.entries(this.#marks).filter(([, lines]) => lines.has(line));
      rows.push(element('div', { textContent: line, className: kinds.map(([kind]) => kind).join(' ') }));
    }
    this.#numbers.replaceChildren(...rows);
    this.#numbers.style.top = `${first * height - scrollTop}px`;
  }
}
