// A table of groups that sorts, opens groups, and goes by the keyboard. Only the lines that are seen are drawn, so
// that ten thousand of them cost no more than a hundred.
import { button, make } from './make.js';

const BEYOND = 10; // lines that are drawn above and below those that are seen, once somebody scrolls
const LEAST = 5; // when fewer of them are left, the lines are drawn anew

function boxOf(label, change) {
  const box = make('input');
  box.type = 'checkbox';
  box.tabIndex = -1;
  box.setAttribute('aria-label', label);
  box.addEventListener('change', change);
  return box;
}

// Whom a line shows of its group.
const memberOf = ({ group, nth }) => (nth === 0 ? group.best : group.resolvers[nth]);
const isSame = (one, other) => one?.group === other?.group && one?.nth === other?.nth;

// By the codes of the characters, as the desk orders names.
const byCode = (one, other) => (one < other ? -1 : one > other ? 1 : 0);

export class Table {
  // COLUMNS are {name, title, of(group) to sort by, cell(group, member, isFirst)}. A group has `resolvers`, a line
  // for each; the lines after the first are shown where the group is opened. CHOOSE(group, member, isEntered) is
  // called for the line that is chosen, by a click or by Enter. ORDER compares groups where no heading was chosen.
  // BOXES are those of lines that can be ticked, or absent: {keyOf(group, member), label(group, member), has(key), set(keys, isOn)}. A
  // line whose key is empty has none.
  constructor({ caption, columns, order, choose, boxes }) {
    Object.assign(this, { columns, order, choose, boxes, groups: [], lines: [], at: -1, sorted: null, isDown: false });
    this.opened = new Set();
    this.isWhole = false;
    this.body = make('tbody');
    this.body.setAttribute('role', 'rowgroup');
    this.heads = columns.map((column) => this.head(column));
    const first = make('tr', '', ...(boxes ? [this.headOfBoxes()] : []), ...this.heads);
    first.setAttribute('role', 'row');
    first.setAttribute('aria-rowindex', '1');
    this.caption = make('caption', '', caption);
    this.table = make('table', '', this.caption, make('thead', '', first), this.body);
    this.table.setAttribute('role', 'grid');
    if (boxes) this.table.setAttribute('aria-multiselectable', 'true');
    this.table.tabIndex = 0;
    this.table.addEventListener('keydown', (event) => this.key(event));
    this.element = make('div', 'scroll', this.table);
    this.element.addEventListener('scroll', () => this.soon(), { passive: true });
    new ResizeObserver(() => this.follow(0)).observe(this.element);
  }

  head(column) {
    const made = button(column.title, '', () => this.sort(column));
    const head = make('th', 'of-' + column.name, made);
    head.scope = 'col';
    head.setAttribute('role', 'columnheader');
    return head;
  }

  name(text) {
    this.caption.textContent = text;
  }

  // The box over all others ticks the first line of each group that is shown.
  headOfBoxes() {
    this.boxOfAll = boxOf('Choose all that are shown', () => this.boxes.set(this.keys(), this.boxOfAll.checked));
    this.boxOfAll.tabIndex = 0;
    const head = make('th', 'of-box', make('label', '', this.boxOfAll));
    head.scope = 'col';
    head.setAttribute('role', 'columnheader');
    return head;
  }

  keys() {
    return [...new Set(this.groups.map((group) => this.boxes.keyOf(group)).filter(Boolean))];
  }

  // The box of a line. A click beside it is one into it, and opens nothing.
  cellOfBox(row, { group, nth }, member) {
    const cell = make('td', 'of-box');
    const key = this.boxes.keyOf(group, member);
    cell.setAttribute('role', 'gridcell');
    cell.addEventListener('click', (event) => event.stopPropagation());
    if (!key) return cell;
    const box = boxOf('Choose ' + this.boxes.label(group, member), () => this.boxes.set([key], box.checked));
    box.dataset.key = key;
    box.checked = this.boxes.has(key);
    row.setAttribute('aria-selected', String(box.checked));
    cell.append(make('label', nth === 0 ? '' : 'more', box));
    return cell;
  }

  // Shows in the boxes what is ticked now.
  tick() {
    if (!this.boxes) return;
    for (const box of this.body.querySelectorAll('.of-box input')) {
      box.checked = this.boxes.has(box.dataset.key);
      box.closest('tr').setAttribute('aria-selected', String(box.checked));
    }
    this.tickAll();
  }

  tickAll() {
    const isAny = this.groups.some((group) => this.boxes.keyOf(group));
    this.boxOfAll.disabled = !isAny;
    this.boxOfAll.checked = isAny && this.groups.every((group) => {
      const key = this.boxes.keyOf(group);
      return !key || this.boxes.has(key);
    });
  }

  // Up, down, and back to the order that was there.
  sort(column) {
    if (this.sorted !== column) Object.assign(this, { sorted: column, isDown: false });
    else if (!this.isDown) this.isDown = true;
    else this.sorted = null;
    this.columns.forEach((each, at) => {
      if (each !== this.sorted) this.heads[at].removeAttribute('aria-sort');
      else this.heads[at].setAttribute('aria-sort', this.isDown ? 'descending' : 'ascending');
    });
    this.show(this.groups);
  }

  show(groups) {
    this.groups = this.sorted ? this.inOrder(groups) : [...groups].sort(this.order);
    this.at = -1;
    this.element.scrollTop = 0;
    this.layOut();
    if (this.boxes) this.tickAll();
    this.draw(0);
  }

  // By the heading that was chosen.
  inOrder(groups) {
    const { of } = this.sorted;
    const sign = this.isDown ? -1 : 1;
    return groups.map((group) => ({ group, key: of(group) }))
      .sort((one, other) => sign * byCode(one.key, other.key) || one.group.order - other.group.order)
      .map(({ group }) => group);
  }

  // A line is a group with one of its members: the best one, or another one where the group is opened.
  layOut() {
    this.lines = [];
    for (const group of this.groups) {
      this.lines.push({ group, nth: 0 });
      if (!this.isWhole && !this.opened.has(group)) continue;
      for (let nth = 1; nth < group.resolvers.length; nth += 1) this.lines.push({ group, nth });
    }
    this.table.setAttribute('aria-rowcount', String(this.lines.length + 1));
  }

  // Once for all that happens before the next picture.
  soon() {
    this.isAsked ??= requestAnimationFrame(() => this.follow(LEAST));
  }

  // Draws anew, unless what is seen is drawn already, and as many lines BEYOND it.
  follow(beyond) {
    this.isAsked = undefined;
    const { drawn } = this;
    const { from, to, height } = this.seen(beyond);
    if (!drawn || drawn.height !== height || from < drawn.from || to > drawn.to) this.draw();
  }

  // The lines that are seen and as many BEYOND them on both sides: FROM one to before TO. HEIGHT is that of a line.
  seen(beyond) {
    const height = this.lineHeight();
    if (this.isWhole) return { from: 0, to: this.lines.length, height };
    const first = Math.floor(this.element.scrollTop / height);
    const last = first + Math.ceil(this.element.clientHeight / height);
    return { from: Math.max(0, first - beyond), to: Math.min(this.lines.length, last + 1 + beyond), height };
  }

  // A table is drawn once it is in its place, since it is as high as that.
  draw(beyond = BEYOND) {
    if (!this.element.isConnected) return;
    const { from, to, height } = this.seen(beyond);
    this.drawn = { from, to, height };
    const rows = this.lines.slice(from, to).map((line, at) => this.row(line, from + at));
    this.body.replaceChildren(this.space(from * height), ...rows, this.space((this.lines.length - to) * height));
    if (this.at >= from && this.at < to) this.table.setAttribute('aria-activedescendant', 'line-' + this.at);
    else this.table.removeAttribute('aria-activedescendant');
  }

  lineHeight() {
    return parseFloat(getComputedStyle(this.element).getPropertyValue('--line')) || 36;
  }

  space(height) {
    const cell = make('td');
    const row = make('tr', 'space', cell);
    row.style.height = height + 'px';
    row.hidden = height === 0;
    row.setAttribute('aria-hidden', 'true');
    return row;
  }

  row(line, at) {
    const { group } = line;
    const member = memberOf(line);
    const isFirst = line.nth === 0;
    const cells = this.columns.map((column) => {
      const cell = make('td', 'of-' + column.name, column.cell(group, member, isFirst) ?? '');
      cell.setAttribute('role', 'gridcell');
      return cell;
    });
    const row = make('tr', isFirst ? 'first' : 'more', ...cells);
    if (this.boxes) row.prepend(this.cellOfBox(row, line, member));
    row.id = 'line-' + at;
    row.setAttribute('role', 'row');
    row.setAttribute('aria-rowindex', String(at + 2));
    if (isSame(line, this.chosen)) row.classList.add('chosen');
    if (at === this.at) row.classList.add('at');
    if (group.accepted) row.classList.add('accepted');
    if (isFirst && group.resolvers.length > 1) row.querySelector('.of-resolver').append(this.opener(group));
    row.addEventListener('click', () => this.take(at, false));
    return row;
  }

  // Opens and closes the further resolvers of a hold. By the keyboard the arrows do.
  opener(group) {
    const isOpen = this.isWhole || this.opened.has(group);
    const more = group.resolvers.length - 1;
    const made = button((isOpen ? '−' : '+') + more, 'opener', (event) => {
      event.stopPropagation();
      this.open(group, !isOpen);
    }, (isOpen ? 'Hide ' : 'Show ') + more + ' more of ' + group.sysmod + ' ' + group.reason);
    made.tabIndex = -1;
    made.setAttribute('aria-expanded', String(isOpen));
    return made;
  }

  open(group, isOpen) {
    if (isOpen) this.opened.add(group);
    else this.opened.delete(group);
    this.layOut();
    this.draw();
  }

  // Ticks the box of a line, or takes the tick away.
  flip(line) {
    const key = this.boxes.keyOf(line.group, memberOf(line));
    this.boxes.set([key], !this.boxes.has(key));
  }

  // Chooses a line.
  take(at, isEntered) {
    this.chosen = this.lines[at];
    this.moveTo(at);
    this.choose(this.chosen.group, memberOf(this.chosen), isEntered);
  }

  // Shows a line as the chosen one, or none.
  reveal(group, member) {
    const line = group && { group, nth: Math.max(0, group.resolvers.indexOf(member)) };
    if (isSame(line, this.chosen)) return;
    this.chosen = line;
    if (line && line.nth > 0 && !this.opened.has(group)) this.open(group, true);
    const at = this.lines.findIndex((each) => isSame(each, line));
    if (at >= 0) this.moveTo(at);
    else this.draw();
  }

  moveTo(at) {
    this.at = Math.max(0, Math.min(at, this.lines.length - 1));
    const height = this.lineHeight();
    const head = this.heads[0].offsetHeight;
    const top = this.at * height;
    const room = this.element.clientHeight - head;
    if (top < this.element.scrollTop) this.element.scrollTop = top;
    else if (top + height > this.element.scrollTop + room) this.element.scrollTop = top + height - room;
    this.draw();
  }

  key(event) {
    if (event.target !== this.table || this.lines.length === 0) return;
    const page = Math.max(1, Math.floor(this.element.clientHeight / this.lineHeight()) - 2);
    const moves = { ArrowDown: 1, ArrowUp: -1, PageDown: page, PageUp: -page, Home: -Infinity, End: Infinity };
    const line = this.lines[this.at];
    if (event.key in moves) this.moveTo(this.at + moves[event.key]);
    else if (!line) return;
    else if (event.key === ' ' && this.boxes?.keyOf(line.group, memberOf(line))) this.flip(line);
    else if (event.key === 'Enter' || event.key === ' ') this.take(this.at, event.key === 'Enter');
    else if (event.key === 'ArrowRight') this.open(line.group, true);
    else if (event.key === 'ArrowLeft') this.open(line.group, false);
    else return;
    event.preventDefault();
  }

  // On paper all lines are there, each group opened.
  whole(isWhole) {
    this.isWhole = isWhole;
    this.layOut();
    this.draw();
  }

  focus() {
    this.table.focus();
  }
}
