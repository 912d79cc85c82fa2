// Who crashes, and when: a row for each crash of the text. A row says what the text says, and what is changed in it
// changes the text.
'use strict';

/** More crashes are changed in the text alone. */
const MOST_ROWS = 16;
/** After how many events a role may save its state, as the rows offer it. */
const SAVES = [1, 2, 3, 5, 10, 100];
const SAVES_WORDS = { 1: 'each event (no loss)', 2: 'each 2nd event', 3: 'each 3rd event' };
/** What it is good for, which a pointer shows and a screen reader says. */
const SAVES_TITLE = 'Saving more often undoes less, and may concern fewer roles';

/** How often a role saves its state, in words. */
function savesWords(count) {
  return SAVES_WORDS[count] ?? `each ${count}th event`;
}

/** Sets the options of a select, which are values with their words, where they aren't there yet; and the chosen one. */
function setOptions(select, pairs, chosen) {
  const key = JSON.stringify(pairs);
  if (select.dataset.key !== key) {
    select.replaceChildren(...pairs.map(([value, words]) => new Option(words, value)));
    select.dataset.key = key;
  }
  select.value = chosen;
}

/** One row. It stays while its numbers change, so that the slider can be held. */
class CrashRow {
  #role = element('select', { 'aria-label': 'Who crashes' });
  #slider = element('input', { type: 'range', 'aria-label': 'After which of its events' });
  #place = element('span', { className: 'place' });
  #event = element('span', { className: 'event' });
  #every = element('select', { 'aria-label': 'How often it saves its state' });
  #remove = element('button', { type: 'button', className: 'remove', textContent: 'Remove' });

  /** `edit` takes the name of a change, and its value. */
  constructor(edit) {
    const who = element('span', { textContent: 'Crash' });
    const saves = element('span', { textContent: 'It saves its state at' });
    this.#every.setAttribute('aria-description', SAVES_TITLE);
    this.box = element(
      'div',
      { className: 'row', role: 'group' },
      element('label', { className: 'who' }, who, this.#role),
      this.#slider,
      this.#remove,
      element('p', { className: 'said' }, this.#place, this.#event),
      element('label', { className: 'saves', title: SAVES_TITLE }, saves, this.#every),
    );
    this.#role.addEventListener('change', () => edit('role', this.#role.value));
    this.#slider.addEventListener('input', () => edit('number', Number(this.#slider.value)));
    this.#every.addEventListener('change', () => edit('every', Number(this.#every.value)));
    this.#remove.addEventListener('click', () => edit('remove'));
  }

  /**
   * Shows a crash. `roles` are the names of the roles, `journal` is that of the session without this crash, `counts`
   * are the ways to save that may be chosen, and `isFixed` says that nothing may.
   */
  show(crash, roles, journal, counts, isFixed) {
    const events = journal.eventsOf(crash.role);
    const names = roles.includes(crash.role) ? roles : [crash.role, ...roles];
    setOptions(this.#role, names.map((it) => [it, it]), crash.role);
    setOptions(this.#every, counts.map((it) => [`${it}`, savesWords(it)]), `${savesAt(crash)}`);
    this.#role.disabled = isFixed;
    this.#every.disabled = isFixed || counts.length < 2;
    this.#remove.setAttribute('aria-label', `Remove this crash of ${crash.role}`);
    this.box.setAttribute('aria-label', `A crash of ${crash.role}`);
    const line = events[crash.number - 1];
    this.#showNumber(crash.number, events.length, line ? journal.wordsOf(line) : '', isFixed);
  }

  /** Shows the number of a crash, where the role makes so many events, and what it does in the last one before it. */
  #showNumber(number, count, event, isFixed) {
    this.#slider.min = Math.min(1, number);
    this.#slider.max = Math.max(1, count);
    this.#slider.value = Math.min(number, count);
    this.#slider.disabled = isFixed || count === 0;
    const rest = number <= count ? ` of ${count}` : `: it makes ${count}, so this never comes`;
    const words = `after event ${number}${rest}`;
    this.#slider.setAttribute('aria-valuetext', event ? `${words}, ${event}` : words);
    this.#place.textContent = words;
    this.#event.textContent = event;
  }
}

/** After how many events the role of a crash saves its state. */
function savesAt({ every }) {
  return every ? every.number : 1;
}

/** All rows. */
class Crashes {
  /** Is given each text that a change makes, and the line to look at, or 0. */
  onchange = () => {};
  /** Tells the text that is changed. */
  textNow = () => '';
  #box;
  #list;
  #none;
  #button;
  #rows = [];
  /** What is shown: the roles with how many events each makes, and the journals without one crash each. */
  #roles = [];
  #journals = [];

  constructor(box) {
    this.#box = box;
    this.#list = box.querySelector('.rows');
    this.#none = box.querySelector('.none');
    this.#button = box.querySelector('.add');
    this.#button.addEventListener('click', () => this.#add());
  }

  /**
   * Shows crashes. `roles` have how many events each makes, `journals` are those of the sessions without one of the
   * crashes, and `isFree` says whether each text has an answer.
   */
  show(crashes, roles, journals, isFree) {
    [this.#roles, this.#journals] = [roles, journals];
    // Where no program runs there are answers to one crash alone.
    const isFixed = !isFree && crashes.length > 1;
    const names = roles.map((it) => it.role);
    this.#setCount(journals.length);
    this.#rows.forEach((row, at) => {
      row.show(crashes[at], names, journals[at], this.#countsOf(crashes[at], isFree), isFixed);
    });
    this.#say(crashes.length > journals.length ? `${crashes.length} crashes: change them in the text.` : '');
    if (!crashes.length) this.#say('Nobody crashes.');
    this.#button.textContent = crashes.length ? 'Add another crash' : 'Add a crash';
    this.#button.hidden = crashes.length >= (isFree ? MOST_ROWS : 1) || roles.every((it) => it.raw === 0);
  }

  /** Shows no crash, and says why. */
  hide(words) {
    this.#setCount(0);
    this.#say(words);
    this.#button.hidden = true;
  }

  #say(words) {
    this.#none.textContent = words;
    this.#none.hidden = words === '';
  }

  /** Adds rows, or takes some away: the button has the cursor of the keyboard then, if one of them had it. */
  #setCount(count) {
    while (this.#rows.length < count) {
      const at = this.#rows.length;
      const row = new CrashRow((what, value) => this.#edit(at, what, value));
      this.#rows.push(row);
      this.#list.append(row.box);
    }
    const gone = this.#rows.splice(count);
    const hadFocus = gone.some(({ box }) => box.contains(document.activeElement));
    for (const { box } of gone) box.remove();
    if (hadFocus) requestAnimationFrame(() => this.#button.focus());
  }

  /** The ways to save that have an answer: where no program runs, the one of the text, or two. */
  #countsOf(crash, isFree) {
    const count = savesAt(crash);
    if (isFree) return SAVES.includes(count) ? SAVES : [...SAVES, count].sort((a, b) => a - b);
    return crash.every && !crash.isPair ? [count] : [1, SAVED_SELDOM];
  }

  #edit(at, what, value) {
    const text = this.textNow();
    const crash = crashesOf(text)[at];
    if (!crash) return;
    if (what === 'number') this.#change(withNumber(text, crash, value), at);
    if (what === 'every') this.#change(withEvery(text, crash, value), at);
    if (what === 'role') this.#change(withRole(text, crash, value, this.#lastOf(at, value)), at);
    if (what === 'remove') this.#change(withoutCrash(text, crash), -1);
  }

  /** The number of a role's last event in the session without a crash. */
  #lastOf(at, role) {
    return Math.max(1, this.#journals[at].eventsOf(role).length);
  }

  /** Adds a crash: of the last role that makes events and has none, after its last one; or else one event earlier. */
  #add() {
    const crashes = crashesOf(this.textNow());
    const able = this.#roles.filter((it) => it.raw > 0);
    const isNew = ({ role }) => !crashes.some((crash) => crash.role === role);
    const { role, raw } = able.filter(isNew).pop() ?? able[0];
    const taken = crashes.filter((crash) => crash.role === role).map((crash) => crash.number);
    let number = raw;
    while (number > 0 && taken.includes(number)) number -= 1;
    this.#change(withCrash(this.textNow(), role, number || Math.max(...taken) + 1), crashes.length);
  }

  #change(text, at) {
    const crash = crashesOf(text)[at];
    this.onchange(text, crash ? lineAt(text, crash.from) : 0);
  }
}
