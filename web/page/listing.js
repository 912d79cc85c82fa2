// Lines of an answer, shown as they are. Of a long answer the beginning and the end are shown, and how much is between.
'use strict';

/** How many lines are shown at the beginning and at the end of a long answer, and how much of a long line. */
const FIRST_LINES = 1500;
const LAST_LINES = 500;
const LONGEST_LINE = 2000;

/** Returns the lines of a text as an element. `kindOf` gives a line's class, by its number, from 1, and its text. */
function listing(text, name, kindOf = () => '') {
  const lines = text.split('\n');
  if (lines[lines.length - 1] === '') lines.pop();
  const box = element('div', { className: 'listing', tabIndex: 0, role: 'group', 'aria-label': name });
  box.style.setProperty('--digits', String(lines.length).length);
  const hidden = lines.length - FIRST_LINES - LAST_LINES;
  if (hidden > 0) {
    box.append(...rowsOf(lines, 0, FIRST_LINES, kindOf), gap(hidden, lines.length));
    box.append(...rowsOf(lines, lines.length - LAST_LINES, lines.length, kindOf));
  } else {
    box.append(...rowsOf(lines, 0, lines.length, kindOf));
  }
  return box;
}

/** Returns an element for each line from a place to another. */
function rowsOf(lines, from, to, kindOf) {
  return lines.slice(from, to).map((whole, place) => {
    const line = whole.length > LONGEST_LINE ? `${whole.slice(0, LONGEST_LINE)} ..` : whole;
    const number = from + place + 1;
    return element('div', { className: kindOf(number, line), textContent: line, 'data-line': number });
  });
}

function gap(hidden, count) {
  const words = `${counted(hidden)} more lines stand here, of ${counted(count)}. Save the answer to see them.`;
  return element('p', { className: 'gap', textContent: words });
}
