// Filters that combine: one of the chosen values of each kind, and all words of the text.
import { button, make } from './make.js';
import { counted } from './words.js';

const wordOf = (kind) => kind.word ?? kind.title.toLowerCase();
const MOST_CHIPS = 6; // a kind with more values has a list to choose from

export class Filters {
  // KINDS are {name, title, of(group) to a list of texts, order, isList, label(text), word, least}: WORD is the title inside of a
  // text, and LEAST how many values it has where it is offered. UNITS are what one group is called, and what
  // several are. CHANGE is called when something was chosen.
  constructor(kinds, units, change) {
    this.units = units;
    this.kinds = kinds.map((kind) => ({ ...kind, chosen: new Set(), place: make('div', 'chips') }));
    this.change = change;
    this.textOf = (group) => group.text; // in which the words are looked for
    this.search = make('input');
    this.search.type = 'search';
    this.search.placeholder = 'Filter';
    this.search.setAttribute('aria-label', 'Show rows with these words');
    this.search.addEventListener('input', () => this.change());
    this.clear = button('Show all', 'plain', () => this.reset());
    this.count = make('p', 'count');
    this.count.setAttribute('role', 'status');
    const places = make('div', 'kinds', ...this.kinds.map((kind) => kind.place));
    this.element = make('div', 'filters', this.search, this.count, this.clear, places);
  }

  // The values that GROUPS have, each with its count.
  offer(groups) {
    for (const kind of this.kinds) {
      const counts = new Map();
      for (const group of groups) for (const value of kind.of(group)) counts.set(value, (counts.get(value) ?? 0) + 1);
      const rank = (value) => (kind.order ?? []).indexOf(value) + 1 || 99;
      const values = [...counts].sort(([one], [other]) => rank(one) - rank(other) || (one < other ? -1 : 1));
      const isList = kind.isList || values.length > MOST_CHIPS;
      kind.place.replaceChildren(...(isList ? [this.list(kind, values)] : this.chips(kind, values)));
      kind.place.hidden = values.length < (kind.least ?? 2) && kind.chosen.size === 0;
      kind.place.setAttribute('role', 'group');
      kind.place.setAttribute('aria-label', kind.title);
    }
  }

  chips(kind, values) {
    return values.map(([value, count]) => {
      const chip = button(value || 'no ' + wordOf(kind), 'chip is-' + (value || 'no').toLowerCase(), () => {
        if (!kind.chosen.delete(value)) kind.chosen.add(value);
        chip.setAttribute('aria-pressed', String(kind.chosen.has(value)));
        this.change();
      });
      chip.append(make('span', 'chip-count', counted(count)));
      chip.setAttribute('aria-pressed', String(kind.chosen.has(value)));
      return chip;
    });
  }

  list(kind, values) {
    const options = values.map(([value, count]) => {
      const words = kind.label?.(value) ?? value;
      const option = make('option', '', (words || 'no ' + wordOf(kind)) + ' (' + counted(count) + ')');
      option.value = '=' + value;
      return option;
    });
    const all = make('option', '', 'Any ' + wordOf(kind));
    all.value = '';
    const select = make('select', '', all, ...options);
    select.setAttribute('aria-label', kind.title);
    const [chosen] = kind.chosen;
    select.value = chosen === undefined ? '' : '=' + chosen;
    select.addEventListener('change', () => {
      kind.chosen.clear();
      if (select.value) kind.chosen.add(select.value.slice(1));
      this.change();
    });
    return select;
  }

  reset() {
    for (const kind of this.kinds) {
      kind.chosen.clear();
      for (const chip of kind.place.querySelectorAll('button')) chip.setAttribute('aria-pressed', 'false');
      for (const list of kind.place.querySelectorAll('select')) list.value = '';
    }
    this.search.value = '';
    this.change();
  }

  of(groups) {
    const words = this.search.value.toLowerCase().split(/\s+/).filter(Boolean);
    const kinds = this.kinds.filter((kind) => kind.chosen.size > 0);
    const isNamed = (text) => words.every((word) => text.includes(word));
    const isWanted = (group) =>
      kinds.every((kind) => kind.of(group).some((value) => kind.chosen.has(value))) &&
      (words.length === 0 || isNamed(this.textOf(group)));
    const found = words.length + kinds.length > 0 ? groups.filter(isWanted) : groups;
    this.clear.hidden = words.length + kinds.length === 0;
    const of = found.length === groups.length ? '' : ' of ' + counted(groups.length);
    this.count.textContent = counted(found.length) + of + ' ' + this.units[groups.length === 1 ? 0 : 1];
    return found;
  }

  // What is chosen, in words for a reader.
  get shown() {
    const chosen = this.kinds.flatMap((kind) => [...kind.chosen].map((value) => value || 'no ' + wordOf(kind)));
    const text = this.search.value.trim();
    return [...chosen, ...(text ? ['“' + text + '”'] : [])].join(', ');
  }

  // What is chosen, as it stands in an address, and back.
  get words() {
    const words = new URLSearchParams();
    for (const kind of this.kinds) for (const value of kind.chosen) words.append(kind.name, value);
    if (this.search.value.trim()) words.append('text', this.search.value.trim());
    return words.toString();
  }

  set words(text) {
    const words = new URLSearchParams(text);
    for (const kind of this.kinds) kind.chosen = new Set(words.getAll(kind.name));
    this.search.value = words.get('text') ?? '';
  }
}
