// The crashes in a text: where they stand in its plan, and the text with one more, one less, or another one. The text
// alone says who crashes. web/examples.py changes the examples in the same way.
'use strict';

/** What is written for a role that would save its state after each event: a crash would take nothing back. */
const SAVED_SELDOM = 10;
/** A plan of more letters isn't looked at: its crashes can be changed in the text alone. */
const LONGEST_PLAN = 20000;
const PLAN_HEAD = /(?:^|\n)%% plan\r?(?:\n|$)/;
const PLAN_TOKEN = /\/\/[^\n]*|\/\*[^]*?\*\/|[A-Za-z_]\w*|\d+|\S/g;
const IS_NUMBER = /^\d/;
const IS_WORD = /^[A-Za-z_]/;

/** Where the plan of a text begins, behind its head, or -1. */
function planStart(text) {
  const head = PLAN_HEAD.exec(text);
  return head ? head.index + head[0].length : -1;
}

/** The tokens of a plan, with their places in the text. */
function planTokens(text) {
  const start = planStart(text);
  if (start < 0 || text.length - start > LONGEST_PLAN) return [];
  const found = [...text.slice(start).matchAll(PLAN_TOKEN)].filter(([word]) => !/^\/[/*]/.test(word));
  return found.map(({ 0: word, index }) => ({ word, from: start + index, to: start + index + word.length }));
}

/** How many tokens the item at a place of a plan has, or 0 where none begins there. */
function itemLength(tokens, at) {
  const is = (step, pattern) => at + step < tokens.length && pattern.test(tokens[at + step].word);
  const { word } = tokens[at];
  if (word === 'every' || word === 'crash') return is(1, IS_WORD) && is(2, IS_NUMBER) ? 3 : 0;
  if (word === 'limit' || word === 'room') return is(1, IS_NUMBER) ? 2 : 0;
  if (word !== 'host' || !is(1, IS_WORD) || !is(2, /^=$/) || !is(3, IS_WORD)) return 0;
  let length = 4;
  while (is(length, /^,$/) && is(length + 1, IS_WORD)) length += 2;
  return length;
}

/** The items `every R n` and `crash R n` of a plan, up to what is no item: kind, role, number, and where they stand. */
function planItems(text) {
  const tokens = planTokens(text);
  const items = [];
  for (let at = 0, length; at < tokens.length && (length = itemLength(tokens, at)); at += length) {
    if (length !== 3) continue;
    const [kind, role, digits] = tokens.slice(at, at + 3);
    const number = Number(digits.word);
    items.push({ kind: kind.word, role: role.word, number, digits, from: kind.from, to: digits.to });
  }
  return items;
}

/**
 * The crashes of a text: of each its role, its number, the `every` item of its role, and where it stands. `every R 10
 * crash R 3` in one line was written as one, and goes as one: it is a pair.
 */
function crashesOf(text) {
  const items = planItems(text);
  return items.flatMap((item, at) => {
    if (item.kind !== 'crash') return [];
    const every = items.find((it) => it.kind === 'every' && it.role === item.role);
    const before = items[at - 1];
    const isPair = before !== undefined && before === every && /^[ \t]+$/.test(text.slice(before.to, item.from));
    return [{ ...item, every, isPair, from: isPair ? before.from : item.from, crashFrom: item.from }];
  });
}

/** A text with something else from a place to another. */
function replaced(text, from, to, by) {
  return text.slice(0, from) + by + text.slice(to);
}

/** The words of a crash: with those by which it takes something back, where the text has none outside this row. */
function crashWords(text, role, number, row) {
  const isIn = (item) => row !== undefined && row.from <= item.from && item.to <= row.to;
  const hasEvery = planItems(text).some((item) => item.kind === 'every' && item.role === role && !isIn(item));
  return hasEvery ? `crash ${role} ${number}` : `every ${role} ${SAVED_SELDOM} crash ${role} ${number}`;
}

/** The text in which a crash comes after another event. */
function withNumber(text, row, number) {
  return replaced(text, row.digits.from, row.digits.to, `${number}`);
}

/** The text in which another role crashes instead. */
function withRole(text, row, role, number) {
  return replaced(text, row.from, row.to, crashWords(text, role, number, row));
}

/** The text in which the role of a crash saves its state after each `count` events. */
function withEvery(text, row, count) {
  if (row.isPair && count === 1) return replaced(text, row.from, row.crashFrom, '');
  if (row.every) return replaced(text, row.every.digits.from, row.every.digits.to, `${count}`);
  return count === 1 ? text : replaced(text, row.crashFrom, row.crashFrom, `every ${row.role} ${count} `);
}

/** The text with one crash more. */
function withCrash(text, role, number) {
  const words = crashWords(text, role, number);
  if (planStart(text) < 0) return `${text}\n%% plan\n${words}\n`;
  return `${text}${text.endsWith('\n') ? '' : '\n'}${words}\n`;
}

/** The text without a crash: without its line, where nothing but a comment is left there, and without an empty plan. */
function withoutCrash(text, row) {
  const lineFrom = text.lastIndexOf('\n', row.from - 1) + 1;
  const end = text.indexOf('\n', row.to);
  const lineTo = end < 0 ? text.length : end + 1;
  const left = text.slice(lineFrom, row.from) + text.slice(row.to, lineTo);
  const isAlone = /^\s*(\/\/.*)?\s*$/.test(left);
  const rest = isAlone ? replaced(text, lineFrom, lineTo, '') : replaced(text, row.from, row.to, '');
  if (rest.slice(planStart(rest)).trim() !== '') return rest;
  return `${rest.slice(0, PLAN_HEAD.exec(rest).index).replace(/\n+$/, '')}\n`;
}

/** The text without all its crashes. */
function withoutCrashes(text) {
  let calm = text;
  for (let rows; (rows = crashesOf(calm)).length; ) calm = withoutCrash(calm, rows[rows.length - 1]);
  return calm;
}
