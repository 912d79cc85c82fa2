// What stands under each tab: what a program wrote, which one that was, and the command that writes the same.
'use strict';

/** The command by which a reader gets the same answer to the text, saved as x.rcv. */
function commandOf(call) {
  if (call === 'rcv-show journal') {
    return "(cat x.rcv; echo '%% journal'; ./rcv run < x.rcv) | ./rcv-show journal > x.svg";
  }
  if (call.startsWith('rcv-show explain')) return `./${call}`;
  return `./${call} < x.rcv${/^rcv-show (table|role|protocol)/.test(call) ? ' > x.svg' : ''}`;
}

/** Says who wrote an answer, and offers it as a file where that has a name. */
function written(call, answer, file) {
  const { milliseconds } = answer;
  const isOld = milliseconds === null;
  const when = isOld ? 'when this page was made' : `here, in ${Math.max(1, Math.round(milliseconds))} ms`;
  const command = element('code', { className: 'command' }, commandOf(call));
  const said = element('p', {}, 'Written by ', code(call), ` ${when}. The same by command: `, command);
  const button = element('button', { type: 'button', textContent: 'Save', 'aria-label': `Save as ${file}` });
  const type = file?.endsWith('.svg') ? 'image/svg+xml' : 'text/plain';
  button.addEventListener('click', () => save(file, type, answer.bytes ?? answer.text));
  return element('div', { className: 'written' }, said, file ? button : null);
}

/** Shows a picture, or what was answered instead. */
function drawn(answer, name) {
  const made = answer.status === 0 ? picture(answer.text) : null;
  if (!made) return listing(answer.text || `status ${answer.status}`, name);
  return element('div', { className: 'frame', tabIndex: 0, role: 'group', 'aria-label': name }, made);
}

function about(...inside) {
  return element('p', { className: 'about' }, ...inside);
}

/** Words that open, with how to read what stands above: signs, each with what it says. */
function reading(signs) {
  const rows = Object.entries(signs).flatMap(([sign, says]) => {
    return [element('dt', { textContent: sign }), element('dd', { textContent: says })];
  });
  const summary = element('summary', { textContent: 'How to read it' });
  return element('details', { className: 'reading' }, summary, element('dl', {}, ...rows));
}

const READING = {
  picture: {
    '\u25cf  \u25cb': "a role sends; a role receives. The number is the message's place in the text",
    'an arrow': 'a message. Time goes down; the number at the left is the line of the journal',
    'grey, dashed': "undone: it isn't kept at the end",
    'a red cross': 'the role crashes',
    'back to event 3': 'the role went back: it keeps its first three events. Below stands what is next for it',
    'stays at event 3':
      'the failure concerns this role, since a message that follows from what is lost may reach it; but none has so ' +
      'far, so it loses nothing. A role that crashed with all it did saved stays, too',
    'goes on': "the failure doesn't concern this role: no message that follows from what is lost reaches it",
    'a dashed orange line': 'the cut: what is kept stands above it',
    'blue, again': 'a message that was kept, and is received once more',
    dropped: 'a message that was on its way, and that the recovery took back',
    'kept 3 of 6': 'of the six events that the role made three are kept',
  },
  table: {
    'a row': 'the role fails, and this message is the first that it loses',
    'a number': 'that role goes back to before the message of this number',
    'a line': 'that role goes on',
  },
  machine: {
    '2 ! m to B': 'it sends the message m, the second of the text, to B',
    '2 ? m from B': 'it receives it from B',
    'a box': 'places at which the role does the same',
  },
  journal: {
    'send Ann 1 order 7 @3': 'Ann sends message 1 of the text, order, with the number 7; her clock says 3',
    'recv Bob 1 order 7 @4 <3': 'Bob receives it; it was sent at 3',
    'crash Bob': 'Bob crashes',
    'recover Bob undone 2: Ann 1 Bob 0':
      "Bob recovers. Two events are undone; Ann keeps 1 of hers, Bob none. Who isn't named keeps all",
    'role Ann kept 1 raw 2 done': "one of Ann's events is kept at the end, two were made, and nothing is left for her",
    completed: 'all roles are done; limited: some role came to the limit of events',
  },
};

/** Words above the panes. */
const TABLE_WORDS =
  'Whom a failure concerns. This is known before anything runs. It is the worst case: who may have to go back, and ' +
  'how far, if a role loses what it did from that message on. How much a role loses when it crashes is up to the ' +
  'plan: saving more often (`every`) undoes less, and may concern fewer roles.';
const STRUCK_WORDS = "What is struck out is undone: it isn't kept at the end.";
const NOT_STRUCK_WORDS = `Nothing is struck out. ${OTHER_COUNT_WORDS}`;

/** Lets the reader choose the role whose machine is shown. */
function roleChoice(roles, role, chooseRole) {
  const select = element('select', { id: 'machine-role' }, ...roles.map((it) => new Option(it, it)));
  select.value = role;
  select.addEventListener('change', () => chooseRole(select.value));
  return about(element('label', { className: 'field' }, 'What this role does, place by place: ', select));
}

/**
 * The panes by their tabs. Each is given the answers to `rcv check` and `rcv run`, the journal, the roles, the one that
 * is chosen, and `ask` for a call; it returns the elements.
 */
const PANES = {
  async picture({ run, journal, ask }) {
    const answer = await ask('rcv-show journal', run.text);
    return [
      recovered(journal),
      drawn(answer, 'The picture of the journal'),
      reading(READING.picture),
      written('rcv-show journal', answer, 'x.svg'),
    ];
  },

  async table({ ask }) {
    const drawing = await ask('rcv-show table');
    const table = await ask('rcv table');
    return [
      about(...marked(TABLE_WORDS)),
      drawn(drawing, 'The picture of the table'),
      reading(READING.table),
      written('rcv-show table', drawing, 'x.table.svg'),
      listing(table.text, 'The table as text'),
      written('rcv table', table, 'x.table'),
    ];
  },

  async machine({ roles, role, chooseRole, ask }) {
    const calls = [`rcv-show role --role ${role}`, `rcv project --role ${role}`];
    const drawing = await ask(calls[0]);
    const machine = await ask(calls[1]);
    return [
      roleChoice(roles, role, chooseRole),
      drawn(drawing, `The machine of ${role}`),
      reading(READING.machine),
      written(calls[0], drawing, `x.${role}.svg`),
      listing(machine.text, 'The machine as text'),
      written(calls[1], machine, `x.${role}.project`),
    ];
  },

  async protocol({ check, ask }) {
    const drawing = await ask('rcv-show protocol');
    return [
      about('The messages in the order of the text, with its choices, loops and lanes.'),
      drawn(drawing, 'The picture of the protocol'),
      written('rcv-show protocol', drawing, 'x.protocol.svg'),
      listing(check.text, 'The protocol in one layout'),
      written('rcv check', check, 'x.canonical'),
    ];
  },

  async journal({ run, journal }) {
    const { lines, isSame } = journal.undone;
    const word = /^(crash|recover|role|completed|limited)\b/;
    const kindOf = (number, line) => (isSame && lines.has(number) ? 'undone' : (word.exec(line)?.[1] ?? ''));
    return [
      about('Each step of the session. ', isSame ? STRUCK_WORDS : NOT_STRUCK_WORDS),
      listing(run.text, 'The journal', kindOf),
      reading(READING.journal),
      written('rcv run', run, 'x.journal'),
    ];
  },
};

/** What stands in the place of all panes where a text is refused: what the programs say of it. */
function refusedPane(refusal, explained) {
  const [head, ...rest] = explained.text.split('\n');
  const parts = paragraphsOf(rest).map(({ kind, text }) => {
    return kind === 'code' ? element('pre', { textContent: text }) : element('p', {}, ...marked(text));
  });
  return [
    element('h2', { textContent: head }),
    about('The rule, an example that it refuses, and how that is repaired.'),
    element('div', { className: 'explained' }, ...parts),
    written(explainCall(refusal), explained),
  ];
}
