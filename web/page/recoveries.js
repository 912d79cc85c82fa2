// What the recoveries of a journal mean, in plain words: who goes back, who loses nothing, and whom they don't concern.
'use strict';

/** More recoveries aren't told in words. */
const MOST_TOLD = 4;
const CALM_WORDS = 'No role crashed, and nothing is undone.';
const OTHER_COUNT_WORDS = 'What the page finds undone is not as much as the journal says. The journal is right.';

/** Names or parts of a sentence, as a list in it. */
function listed(parts) {
  const last = parts[parts.length - 1];
  return parts.length < 2 ? parts.join('') : `${parts.slice(0, -1).join(', ')} and ${last}`;
}

/** Who goes back, and to where, the crashed role first; and how many events that undoes. */
function backWords(lose, sum, crashed) {
  if (!lose.length) return 'Nobody goes back: nothing is undone.';
  const inOrder = [...lose.filter(({ role }) => role === crashed), ...lose.filter(({ role }) => role !== crashed)];
  const ways = inOrder.map(({ role, kept }, at) => {
    return `${role} ${at ? '' : 'goes back '}to its ${kept ? `event ${counted(kept)}` : 'start'}`;
  });
  return `${listed(ways)}: ${counted(sum)} ${sum === 1 ? 'event' : 'events'} undone.`;
}

/** Who is concerned, but loses nothing. */
function stayWords(names) {
  if (!names.length) return '';
  return `${listed(names)} ${names.length === 1 ? 'is concerned and loses' : 'are concerned and lose'} nothing.`;
}

/** Who isn't concerned; nothing where all are. */
function otherWords(names) {
  if (!names.length) return '';
  return `${listed(names)} ${names.length === 1 ? "isn't concerned and goes" : "aren't concerned and go"} on.`;
}

/** A recovery in words, where these are the names of all roles. Where the page's count is another, it says so. */
function recoveryWords({ role, cuts, sum, isSame }, names) {
  if (!isSame) return `${role} crashed. ${OTHER_COUNT_WORDS}`;
  const lose = cuts.filter(({ lost }) => lost);
  const stay = cuts.filter(({ lost }) => !lost).map((cut) => cut.role);
  const others = names.filter((it) => !cuts.some((cut) => cut.role === it));
  // Where nothing is undone there is no need to say it of the crashed role once more.
  const told = sum ? stay : stay.filter((it) => it !== role);
  const sentences = [`${role} crashed.`, backWords(lose, sum, role), stayWords(told), otherWords(others)];
  return sentences.filter(Boolean).join(' ');
}

/** The first recoveries of a journal, each with its line and its words, and how many more there are. */
function toldRecoveries({ undone, roles }) {
  const names = roles.map((it) => it.role);
  const told = undone.recoveries.slice(0, MOST_TOLD).map((it) => ({ line: it.line, words: recoveryWords(it, names) }));
  return { told, more: undone.recoveries.length - told.length };
}

/** The same as one text, as a screen reader says it. */
function spokenRecoveries(journal) {
  const { told, more } = toldRecoveries(journal);
  if (!told.length) return CALM_WORDS;
  const rest = more ? [`And ${counted(more)} more in the journal.`] : [];
  return [...told.map(({ words }) => words), ...rest].join(' ');
}

/** The same as an element, with the lines of the journal. */
function recovered(journal) {
  const { told, more } = toldRecoveries(journal);
  if (!told.length) return element('p', { className: 'recovered none', textContent: CALM_WORDS });
  const shown = told.map(({ words, line }) => element('li', {}, element('div', { textContent: words }), code(line)));
  if (more) shown.push(element('li', { textContent: `and ${counted(more)} more in the journal` }));
  const legend =
    'A line of the journal says how many events are undone, and how many each role keeps that the failure concerns. ' +
    "A role that isn't named keeps all it did.";
  const words = element('p', { textContent: legend });
  return element('div', { className: 'recovered' }, element('ul', {}, ...shown), words);
}
