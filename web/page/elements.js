// Elements of the page, words in them, and files to save. All words go in as text, and are never read as HTML.
'use strict';

/** Returns the element with this id. */
function byId(id) {
  return document.getElementById(id);
}

/** Returns a new element with properties, or attributes where a name has a dash, and with what stands in it. */
function element(name, properties = {}, ...inside) {
  const made = document.createElement(name);
  for (const [key, value] of Object.entries(properties)) {
    if (key.includes('-') || key === 'role') made.setAttribute(key, value);
    else made[key] = value;
  }
  made.append(...inside.filter((it) => it !== null));
  return made;
}

/** Returns an element that shows code. */
function code(text) {
  return element('code', {}, text);
}

/** Returns the words of a text, in which what stands between backquotes is code. */
function marked(text) {
  return text.split('`').map((piece, at) => (at % 2 ? code(piece) : piece));
}

/** Returns a number in digits, by threes. */
function counted(number) {
  return number.toLocaleString('en');
}

/** Returns in which line of a text a place is, from 1. */
function lineAt(text, place = text.length) {
  return text.slice(0, place).split('\n').length;
}

/** The same for places that ascend. */
function linesAt(text, places) {
  let [line, from] = [1, 0];
  return places.map((place) => {
    line += lineAt(text.slice(from, place)) - 1;
    from = place;
    return line;
  });
}

/** Hands a file to the reader: bytes or text. */
function save(name, type, content) {
  const address = URL.createObjectURL(new Blob([content], { type }));
  element('a', { href: address, download: name }).click();
  // The browser reads it a little later.
  setTimeout(() => URL.revokeObjectURL(address), 60000);
}
