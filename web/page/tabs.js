// Tabs: one is chosen, by a click or by the arrow keys, Home and End.
'use strict';

/** The tabs of a list. The panel is one, and is named by the tab that is chosen. */
class Tabs {
  /** Is told which tab was chosen: the part of its id behind `tab-`. */
  onchange = () => {};
  #tabs;
  #panel;

  constructor(list, panel) {
    this.#tabs = [...list.querySelectorAll('[role=tab]')];
    this.#panel = panel;
    for (const tab of this.#tabs) tab.addEventListener('click', () => this.#choose(tab));
    list.addEventListener('keydown', (event) => this.#onkey(event));
    this.chosen = 'picture';
  }

  get chosen() {
    return this.#tabs.find((tab) => tab.getAttribute('aria-selected') === 'true').id.slice('tab-'.length);
  }

  set chosen(name) {
    for (const tab of this.#tabs) {
      const isChosen = tab.id === `tab-${name}`;
      tab.setAttribute('aria-selected', isChosen);
      tab.tabIndex = isChosen ? 0 : -1;
      if (isChosen) this.#panel.setAttribute('aria-labelledby', tab.id);
    }
  }

  #choose(tab) {
    this.chosen = tab.id.slice('tab-'.length);
    this.onchange(this.chosen);
  }

  #onkey(event) {
    const at = this.#tabs.findIndex((tab) => tab.id === `tab-${this.chosen}`);
    const places = { ArrowRight: at + 1, ArrowLeft: at - 1, Home: 0, End: -1 };
    if (!(event.key in places) || event.altKey || event.ctrlKey || event.metaKey) return;
    event.preventDefault();
    const tab = this.#tabs.at(places[event.key] % this.#tabs.length);
    tab.focus();
    this.#choose(tab);
  }
}
