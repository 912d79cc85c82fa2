// Below the text: whether it is accepted, and where it is refused, at which line and what is to be done. A screen
// reader is told that, and who has to go back.
'use strict';

/** What the statuses mean under which nothing is written. */
const STATUS_WORDS = {
  4: 'The input could not be read.',
  6: 'No memory was left for the program. Try a shorter text, or a smaller limit.',
  7: 'The text has more than 1,048,576 bytes. No longer text is taken.',
};
const ACCEPTED_WORDS = 'No session of it gets stuck short of its limit, and no message comes unexpected.';
const LIMITED_WORDS = 'Who is named came to the limit of events: 10,000, or as many as the plan says.';

/** The place of the verdict. */
class Verdict {
  /** Is told which line the reader wants to see. */
  onjump = () => {};
  #box;
  #told = byId('told');

  constructor(box) {
    this.#box = box;
  }

  #show(kind, ...inside) {
    this.#box.className = `verdict ${kind}`;
    const next = element('div', {}, ...inside);
    // A screen reader says what changes: the same words aren't said twice.
    if (next.textContent !== this.#box.firstChild?.textContent) this.#box.replaceChildren(next);
    if (kind !== 'good') this.#tell('');
  }

  #tell(words) {
    if (this.#told.textContent !== words) this.#told.textContent = words;
  }

  /** Says that a text is accepted, and how its session ended; to a screen reader also who had to go back. */
  accept(journal) {
    const { last } = journal;
    const strong = element('strong', { textContent: 'Accepted' });
    const more = last === 'completed' ? ACCEPTED_WORDS : `${LIMITED_WORDS} ${ACCEPTED_WORDS}`;
    this.#show(
      'good',
      element('p', {}, strong, ' by ', code('rcv check'), '. The session ends: ', code(last)),
      element('p', { className: 'more', textContent: more }),
    );
    this.#tell(spokenRecoveries(journal));
  }

  /** Says a refusal: its line, and what the call says of it. */
  refuse(refusal, { lines, paragraphs }, call) {
    const [line] = lines;
    const jump = element('button', { type: 'button', className: 'jump', textContent: `Go to line ${line}` });
    jump.addEventListener('click', () => this.onjump(line));
    this.#show(
      'bad',
      element('p', { className: 'head' }, code(refusal.said), line ? jump : null),
      ...paragraphs.map(({ kind, text }) => element('p', { className: kind }, ...marked(text))),
      element('p', { className: 'more' }, 'Said by ', code('rcv check'), ' and ', code(call), '.'),
    );
  }

  /** Says that there is no verdict. */
  miss(words) {
    this.#show('', element('p', { textContent: words }));
  }

  /** Says the status of an answer without a text. */
  fail(call, status) {
    this.#show('bad', element('p', {}, code(call), ` ended with status ${status}. `, STATUS_WORDS[status] ?? ''));
  }
}
