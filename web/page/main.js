// The page: a text, and what the programs answer to it.
'use strict';

/** The example that the page begins with. */
const START = 'delivery';
/** How long the reader pauses before a text is answered, and before a refusal takes the place of the last picture. */
const PAUSE = 250;
const LONG_PAUSE = 1200;
/** After how long the last answer is shown as an old one. */
const OLD_AFTER = 400;

class Page {
  #asker = new Asker();
  #editor = new Editor(byId('editor'));
  #crashes = new Crashes(byId('crashes'));
  #tabs = new Tabs(byId('tabs'), byId('pane'));
  #verdict = new Verdict(byId('verdict'));
  #work = new Work(byId('work'));
  #link = new LinkBox();
  #kept = new KeptText();
  #own = new OwnTexts();
  /** Whether the reader typed in the text that stands here. */
  #isTyped = false;
  #chooser = null;
  #pane = byId('pane');
  /** What is to be shown next, and the promise of what is being shown. */
  #wanted = null;
  #showing = null;
  /** The text whose verdict is shown. */
  #judged = null;
  #timers = { pause: null, longPause: null, old: null };
  /** The role whose machine is shown. */
  #role = null;

  constructor() {
    this.#asker.onwork = (running) => this.#work.follow(running);
    this.#work.onstop = () => this.#asker.stop('asked');
    this.#work.onagain = () => this.#show();
    this.#editor.oninput = () => this.#typed();
    this.#editor.onrestore = (name) => this.#restore(name);
    this.#crashes.textNow = () => this.#editor.text;
    this.#crashes.onchange = (text, line) => this.#change(text, line);
    this.#tabs.onchange = () => this.#show();
    this.#verdict.onjump = (line) => this.#editor.select(line);
    byId('new').addEventListener('click', () => this.#begin());
    byId('save-text').addEventListener('click', () => this.#save());
    byId('link').addEventListener('click', () => this.#link.show(this.#editor.text));
    addEventListener('hashchange', () => this.#followHash());
    this.#listenForUndo();
  }

  /** Undo and redo go by the keys wherever the cursor is; and a slider that is held makes one step. */
  #listenForUndo() {
    addEventListener('keydown', (event) => {
      const way = wayOfKeys(event);
      if (!way) return;
      event.preventDefault();
      this.#editor.go(way);
    });
    addEventListener('pointerdown', (event) => {
      this.#editor.isHeld = event.target.type === 'range';
    });
    for (const kind of ['pointerup', 'pointercancel']) addEventListener(kind, () => (this.#editor.isHeld = false));
  }

  /** Reads the examples, shows the first text, and opens the programs. */
  async start() {
    try {
      this.#asker.examples = await Examples.open(byId('examples').textContent);
    } catch (error) {
      announce(`This browser can't unzip what is in this page (${error.message}). A newer one can.`);
      return;
    }
    this.#chooser = new Chooser(this.#asker.examples, this.#own);
    this.#chooser.onchange = (name) => this.#choose(name);
    const opened = openPrograms();
    await this.#showFirst();
    this.#free(await opened);
    this.#show();
    document.documentElement.dataset.programs = programs ? 'ready' : 'none';
  }

  /** Lets the reader write, where the programs run: there is no reason against it. */
  #free(reason) {
    this.#asker.isOpening = false;
    this.#asker.programs = programs;
    if (reason) {
      tellOfLack(reason);
      return;
    }
    tellOfPrograms();
    this.#editor.isFixed = false;
    for (const id of ['new', 'link']) byId(id).hidden = false;
  }

  // ---- which text

  /** Shows the text that stood here where the page was only loaded again, else that of the address, else an example. */
  async #showFirst() {
    const kept = this.#kept.read();
    const isAgain = kept && this.#kept.isAgain;
    // The page was left with it, and opened anew by an address.
    if (kept && !isAgain) this.#keepOwn(kept.text, kept.name, kept.isTyped);
    if (isAgain) {
      this.#set(kept.text, kept.name);
      this.#isTyped = kept.isTyped;
    } else if (!(await this.#followHash())) {
      this.#choose(START);
    }
    this.#editor.begin(this.#editor.text);
    this.#editor.tag = this.#chooser.name;
  }

  /** Shows the text of the address. Returns whether it has one, or should. */
  async #followHash() {
    try {
      const text = await textOfHash(location.hash);
      if (text === null) return false;
      announce('');
      this.#link.carry(text);
      this.#set(text, null);
    } catch (error) {
      const isLong = error instanceof RangeError;
      const why = isLong ? 'has a longer text than any that is taken' : "is damaged: its text can't be read";
      this.#link.carry(this.#chooser.textOf(START));
      this.#choose(START);
      announce(`This link ${why}. Here is an example instead.`);
    }
    return true;
  }

  #choose(name) {
    this.#set(this.#chooser.textOf(name), name);
  }

  #begin() {
    this.#set(this.#asker.examples.own, null);
    this.#editor.focus();
  }

  /** Shows a text, which has this name in the list or none. What stood here is kept, where it is the reader's own. */
  #set(text, name) {
    this.#keepOwn(this.#editor.text, this.#chooser.name, this.#isTyped);
    this.#isTyped = false;
    this.#chooser.name = name;
    this.#link.close();
    this.#editor.text = text;
    this.#editor.tag = this.#chooser.name;
    this.#show();
  }

  /** Keeps a text that has this name or none, where it is the reader's own. Returns its name, or null. */
  #keepOwn(text, name, isTyped) {
    if (this.#chooser.isOwn(name)) this.#own.change(name, text, isTyped);
    else if (text && !this.#chooser.isKnown(text)) return this.#own.add(text, isTyped);
    return name;
  }

  /** Undo or redo brought back a text that had this name. */
  #restore(name) {
    this.#chooser.name = name;
    this.#isTyped = true;
    if (this.#chooser.isOwn(name)) this.#own.change(name, this.#editor.text, true);
    this.#show();
  }

  /** Shows a text that a row of crashes changed, at a line. A slider's changes in a row are one step. */
  #change(text, line) {
    this.#editor.change(text, document.activeElement.type === 'range' ? 'slider' : '');
    if (this.#chooser.isOwn(this.#chooser.name)) this.#own.change(this.#chooser.name, text, false);
    if (line) requestAnimationFrame(() => this.#editor.reveal(line));
    this.#show();
  }

  #typed() {
    const { text } = this.#editor;
    this.#isTyped = true;
    this.#nameTyped();
    // Kept from now on: the page may be loaded again before the programs are asked.
    this.#kept.keep({ text, name: this.#chooser.name, isTyped: true });
    this.#link.follow(text);
    this.#markCrashes();
    this.#later('longPause', 0, null);
    this.#later('pause', PAUSE, () => this.#show(true));
  }

  /** A text that is typed is in the list at once, but one that began as an example has that name until it is left. */
  #nameTyped() {
    const { name } = this.#chooser;
    if (name === null || this.#chooser.isOwn(name)) {
      this.#chooser.name = this.#keepOwn(this.#editor.text, name, true);
      this.#editor.tag = this.#chooser.name;
    }
  }

  #markCrashes() {
    const { text } = this.#editor;
    this.#editor.mark('crash', linesAt(text, crashesOf(text).map((crash) => crash.crashFrom)));
  }

  /** Marks the line where a refusal stands, and those that it names besides. */
  #markRefused([first, ...others]) {
    this.#editor.mark('refused', first ? [first] : []);
    this.#editor.mark('named', others);
  }

  #save() {
    const { name } = this.#chooser;
    save(`${name === null || this.#chooser.isOwn(name) ? 'mine' : name}.rcv`, 'text/plain', this.#editor.text);
  }

  // ---- what comes of it

  /** Does something later, in the place of what was to be done later under this name. */
  #later(name, milliseconds, action) {
    clearTimeout(this.#timers[name]);
    if (action) this.#timers[name] = setTimeout(action, milliseconds);
  }

  /**
   * Shows what the programs answer to the text. While a slider is moved there is a new text before the last one is
   * answered: then that is still shown, if it doesn't take long, and the newest one after it.
   */
  #show(isTyped = false) {
    const { text } = this.#editor;
    this.#later('pause', 0, null);
    this.#later('longPause', 0, null);
    this.#later('old', OLD_AFTER, () => this.#pane.classList.add('old'));
    this.#kept.keep({ text, name: this.#chooser.name, isTyped: this.#isTyped });
    this.#link.follow(text);
    this.#work.close();
    this.#markCrashes();
    this.#chooser.tell(text);
    this.#wanted = { text, isTyped };
    this.#asker.stop('stale');
    this.#pane.setAttribute('aria-busy', true);
    this.#showing ??= this.#showWanted();
    return this.#showing;
  }

  async #showWanted() {
    while (this.#wanted) {
      const { text, isTyped } = this.#wanted;
      this.#wanted = null;
      const ask = (call, input = text, journal = undefined) => this.#asker.ask(call, input, journal);
      await this.#answer(text, ask, isTyped).catch((error) => this.#fail(error));
    }
    this.#showing = null;
    this.#pane.setAttribute('aria-busy', false);
  }

  async #answer(text, ask, isTyped) {
    const check = await ask('rcv check');
    if (check.status === 2) return this.#refuse(text, refusalOf(check.text), ask, isTyped);
    if (check.status !== 0) return this.#miss('rcv check', check.status);
    const run = await ask('rcv run');
    if (run.status !== 0 && run.status !== 3) return this.#miss('rcv run', run.status);
    const journal = new Journal(run.text);
    this.#markRefused([]);
    this.#judged = text;
    this.#verdict.accept(journal);
    if (!this.#wanted) await this.#showCrashes(text, journal, ask);
    return this.#fill({ text, check, run, journal }, ask);
  }

  /** Shows the crashes, each with the journal of the session without it. */
  async #showCrashes(text, journal, ask) {
    const crashes = crashesOf(text);
    const without = [];
    for (const crash of crashes.length <= MOST_ROWS ? crashes : []) {
      const run = await ask('rcv run', withoutCrash(text, crash));
      without.push(new Journal(run.text));
    }
    // The hand may have moved a slider meanwhile: it isn't taken back.
    if (!this.#wanted) this.#crashes.show(crashes, journal.roles, without, this.#asker.isFree);
  }

  /** Fills the pane of the tab that is chosen. */
  async #fill(known, ask) {
    const roles = known.journal.roles.map((it) => it.role);
    if (!roles.includes(this.#role)) [this.#role] = roles;
    const chooseRole = (role) => {
      this.#role = role;
      this.#show().then(() => byId('machine-role')?.focus());
    };
    const askOf = (call, journal) => ask(call, known.text, journal);
    const nodes = await PANES[this.#tabs.chosen]({ ...known, roles, role: this.#role, chooseRole, ask: askOf });
    this.#place(nodes, this.#tabs.chosen);
  }

  /** Puts elements into the pane. What the reader opened there stays open, and the pane stays scrolled as it was. */
  #place(nodes, shown) {
    const wasOpen = this.#pane.querySelector('details')?.open ?? false;
    const isSame = this.#pane.dataset.shown === shown;
    this.#later('old', 0, null);
    this.#pane.replaceChildren(...nodes);
    this.#pane.dataset.shown = shown;
    this.#pane.classList.remove('old');
    byId('tabs').hidden = shown === 'refused';
    const details = this.#pane.querySelector('details');
    if (details && isSame) details.open = wasOpen;
    // Where it stands as it stood nothing is asked of it: that would have the page laid out once more.
    if (!isSame) this.#pane.scrollTop = 0;
  }

  /** Says a refusal. While the reader types, the last picture stays a while. */
  async #refuse(text, refusal, ask, isTyped) {
    const explained = await ask(explainCall(refusal));
    const points = refusal.isRule ? await ask('rcv-show points') : null;
    const told = points ? toldByPoints(points.text) : toldByExplanation(refusal, explained.text);
    this.#markRefused(told.lines);
    this.#judged = text;
    this.#verdict.refuse(refusal, told, points ? 'rcv-show points' : explainCall(refusal));
    const isOld = isTyped && this.#pane.dataset.shown !== 'refused';
    this.#later('old', 0, null);
    this.#pane.classList.toggle('old', isOld);
    this.#later('longPause', isOld ? LONG_PAUSE : 0, () => {
      this.#crashes.hide('A refused text has no session, so nobody can crash in it.');
      this.#place(refusedPane(refusal, explained), 'refused');
    });
  }

  /** Says that a program ended without an answer. */
  #miss(call, status) {
    this.#verdict.fail(call, status);
    this.#clear();
  }

  /** Says why there is no answer. */
  #fail(error) {
    if (this.#wanted) return;
    if (error instanceof Stopped) {
      this.#keepShown(error);
      return;
    }
    this.#verdict.miss(error.message);
    this.#clear();
  }

  /** Says that a program was ended. What is shown stays, as an old answer. */
  #keepShown(error) {
    this.#work.tell(stoppedWords(error));
    this.#later('old', 0, null);
    this.#pane.classList.add('old');
    if (this.#judged === this.#editor.text) {
      // It is accepted: the refusal is of another text.
      if (this.#pane.dataset.shown === 'refused') this.#place([], '');
    } else {
      byId('verdict').classList.add('old');
    }
  }

  #clear() {
    this.#later('old', 0, null);
    this.#markRefused([]);
    this.#crashes.hide('');
    this.#pane.replaceChildren();
    this.#pane.dataset.shown = '';
  }
}

new Page().start();
