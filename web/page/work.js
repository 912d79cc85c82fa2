// Says that a program is at work, once that takes a second, and offers to end it; and that it was ended, and offers to
// ask it again. The line stands above other things and moves none.
'use strict';

/** The line that says it. */
class Work {
  /** Is told that the reader wants the program ended. */
  onstop = () => {};
  /** Is told that the reader wants it asked again. */
  onagain = () => {};
  #box;
  #said;
  #button;
  #timer = null;
  #hasEnded = false;

  constructor(box) {
    this.#box = box;
    this.#said = box.querySelector('span');
    this.#button = box.querySelector('button');
    this.#button.addEventListener('click', () => (this.#hasEnded ? this.onagain() : this.onstop()));
  }

  /** Follows a call, or nothing. */
  follow(running) {
    clearInterval(this.#timer);
    this.close();
    if (running) this.#timer = setInterval(() => this.#tell(running), 200);
  }

  /** Says why a program was ended. */
  tell(words) {
    clearInterval(this.#timer);
    this.#hasEnded = true;
    this.#said.textContent = words;
    this.#button.textContent = 'Ask again';
    this.#box.hidden = false;
  }

  close() {
    this.#hasEnded = false;
    this.#box.hidden = true;
  }

  /** A screen reader says it once, and not each second. */
  #tell({ call, since }) {
    const seconds = Math.floor((performance.now() - since) / 1000);
    if (seconds < 1) return;
    if (this.#box.hidden) this.#said.replaceChildren(`${call} is at work`, element('span', { 'aria-hidden': true }));
    this.#button.textContent = 'Stop';
    this.#said.lastChild.textContent = `, for ${seconds} s of at most ${PATIENCE}`;
    this.#box.hidden = false;
  }
}

/** Whether a call was ended before it is known whether the text is accepted: only then it is asked about further. */
function isBeforeVerdict({ call }) {
  return /check|points|explain/.test(call);
}

/** Why a program was ended, in words. */
function stoppedWords(error) {
  const { call, reason } = error;
  const before = isBeforeVerdict(error) ? '' : 'The text is accepted. ';
  if (reason === 'asked') return `${before}You ended ${call}. What is shown here is older.`;
  const how = `On the command line it may take as long as it likes: ${commandOf(call)}`;
  return `${before}${call} took more than ${PATIENCE} seconds, and was ended. ${how}`;
}
