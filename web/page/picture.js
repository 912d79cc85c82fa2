// Pictures of rcv-show. Each has a style sheet of its own, whose names are short: so each stands in a shadow root.
'use strict';

/** Returns a picture as an element, or nothing where the text is none. */
function picture(text) {
  const root = new DOMParser().parseFromString(text, 'image/svg+xml').documentElement;
  if (root.localName !== 'svg' || root.querySelector('parsererror')) return null;
  const host = element('div', { className: 'drawing' });
  const width = Number(root.getAttribute('width'));
  // It shrinks where it has to, as long as its words can be read.
  host.style.setProperty('--width', `${width}px`);
  const sheet = element('style', { textContent: ':host{display:block}svg{display:block;width:100%;height:auto}' });
  host.attachShadow({ mode: 'open' }).append(sheet, document.importNode(root, true));
  return host;
}
