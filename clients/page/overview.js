// All zones at a glance: what is urgent comes first. A zone's counts fill in as the desk tells them, and what is new as its reports come.
import { lineOver, link, make } from './make.js';
import { counted, several, sumsByDay } from './words.js';
import { sinceWords } from './news.js';
import { ALL, addressOf } from './address.js';

const PAUSE = 100; // milliseconds at least between two pictures of what has come: to draw many zones takes its time
const BARS = [['hiper', 'HIPER'], ['pe', 'PE'], ['other', 'other']];

// ADDRESS leads to one list over all zones.
function tile(title, className, address) {
  const number = make('strong', 'tile-number', '–');
  const words = make('span', 'soft', '');
  const trend = make('span', 'tile-trend');
  const element = link('', 'tile ' + className, address);
  element.append(make('span', 'tile-title', title), number, trend, words);
  return { element, number, words, trend, title };
}

// A bar of the three kinds of holds, as long as its share of the largest zone.
function barOf(counts, most) {
  const parts = BARS.filter(([name]) => counts[name] > 0).map(([name, title]) => {
    const part = make('span', 'part class-' + name);
    part.style.flexGrow = String(counts[name]);
    part.title = several(counts[name], title + ' hold');
    return part;
  });
  const bar = make('span', 'zone-bar', ...parts);
  bar.setAttribute('aria-hidden', 'true');
  bar.style.width = Math.max(counts.holds > 0 ? 1.5 : 0, (100 * counts.holds) / Math.max(1, most)) + '%';
  return bar;
}

function figure(zone, number, words, className, tab, filter) {
  const text = [make('strong', '', counted(number)), ' ', make('span', 'figure-words', words)];
  if (number === 0) return make('span', 'figure zero', ...text);
  const label = zone + ': ' + counted(number) + ' ' + words;
  const made = link('', 'figure ' + className, addressOf({ zone, tab, words: filter }), label);
  made.append(...text);
  return made;
}

function figuresOf(zone, counts) {
  return [
    figure(zone, counts.hiper, 'HIPER', 'class-hiper', 'errors', 'class=HIPER'),
    figure(zone, counts.pe, 'PE', 'class-pe', 'errors', 'class=PE'),
    figure(zone, counts.other, 'other', 'class-other', 'errors', ''),
    figure(zone, counts.unresolved, 'no resolver', 'status-none', 'errors', 'status=none'),
    figure(zone, counts.held, 'held', 'status-held', 'errors', 'status=HELD'),
    figure(zone, counts.good, 'can be resolved', 'status-good', 'errors', 'status=GOOD'),
    figure(zone, counts.fixes, counts.fixes === 1 ? 'fix missing' : 'fixes missing', 'fixes', 'fixes', ''),
  ];
}

// The most urgent zones first.
function byUrgency(one, other) {
  const [a, b] = [one.counts, other.counts];
  if (!a || !b) return (a ? 0 : 1) - (b ? 0 : 1) || one.order - other.order;
  return b.hiper - a.hiper || b.unresolved - a.unresolved || b.holds - a.holds || b.fixes - a.fixes ||
    one.order - other.order;
}

export class Overview {
  // FAULT(fault) gives the words for what did not come.
  constructor(snapshot, faultOf) {
    Object.assign(this, { snapshot, faultOf });
    this.since = tile('New', 'since', addressOf({ zone: ALL, tab: 'new' }));
    this.since.element.hidden = true;
    this.tiles = {
      hiper: tile('HIPER holds', 'class-hiper', addressOf({ zone: ALL, tab: 'errors', words: 'class=HIPER' })),
      unresolved: tile('No resolver', 'status-none', addressOf({ zone: ALL, tab: 'errors', words: 'status=none' })),
      holds: tile('Held in error', 'of-all', addressOf({ zone: ALL, tab: 'errors' })),
      fixes: tile('Fixes missing', 'of-all', addressOf({ zone: ALL, tab: 'fixes' })),
    };
    this.zones = snapshot.zones.map((each, order) => ({
      ...each, order, counts: snapshot.counts.get(each.zone), fault: '', element: make('li', 'zone'),
    }));
    this.list = make('ul', 'zones');
    this.element = make('div', 'overview', make('h1', 'off', 'Your zones'),
      make('div', 'tiles', this.since.element, ...Object.values(this.tiles).map((each) => each.element)), this.list);
    this.show();
    this.done = this.fill();
  }

  // Asks for the counts of all zones and then for their reports, a few at a time. Zones that are not asked for any more are left.
  async fill() {
    const left = this.zones.filter((each) => !each.counts);
    await Promise.all(left.map(async (each) => {
      each.counts = await this.snapshot.countsByDesk(each.zone).catch(() => null); // then its reports tell what is wrong
      if (each.counts) this.soon();
    }));
    await Promise.all(left.map(async (each) => {
      if (this.snapshot.isEnded) return;
      try {
        each.counts = await this.snapshot.countsOf(each.zone, false);
      } catch (fault) {
        if (this.snapshot.isEnded) return;
        each.fault = this.faultOf(fault);
      }
      this.soon();
    }));
  }

  // Shows what has come, a moment later. That no zone waits any more is shown at once.
  soon() {
    const isWhole = this.zones.every((each) => each.counts || each.fault);
    const pause = isWhole && !this.isWhole ? 0 : this.shown + PAUSE - performance.now();
    this.isWhole = isWhole;
    clearTimeout(this.waiting);
    this.waiting = setTimeout(() => this.show(), pause);
  }

  show() {
    const known = this.zones.filter((each) => each.counts);
    const most = Math.max(0, ...known.map((each) => each.counts.holds));
    for (const each of this.zones) this.draw(each, most);
    this.showNews();
    this.order();
    const sum = (name) => known.reduce((all, each) => all + each.counts[name], 0);
    const zonesWith = (name) => known.filter((each) => each.counts[name] > 0).length;
    if (known.length === this.zones.length) this.showTrends();
    for (const [name, { number, words, element }] of Object.entries(this.tiles)) {
      number.textContent = counted(sum(name));
      const toOrder = name === 'unresolved' && sum('order') > 0 ? ', ' + counted(sum('order')) + ' to order' : '';
      const apart = name === 'holds' && sum('accepted') > 0 ? ', ' + counted(sum('accepted')) + ' accepted' : '';
      words.textContent = 'in ' + zonesWith(name) + ' of ' + several(known.length, 'zone') + toOrder + apart;
      element.classList.toggle('zero', sum(name) === 0);
    }
    this.shown = performance.now();
  }

  // Moves those zones that are not in their place. What had the focus keeps it.
  order() {
    const { list } = this;
    const focused = list.contains(document.activeElement) ? document.activeElement : null;
    [...this.zones].sort(byUrgency).forEach(({ element }, at) => {
      if (list.children[at] !== element) list.insertBefore(element, list.children[at] ?? null);
    });
    if (focused && focused !== document.activeElement) focused.focus({ preventScroll: true });
  }

  // What is new in a zone, and its holds day by day as a small line.
  marksOf(zone) {
    const news = this.snapshot.news.get(zone);
    const marks = [];
    if (news && news.came + news.went + news.changed > 0) {
      const text = '+' + counted(news.came) + ' −' + counted(news.went) + (news.changed > 0 ? ' ~' + counted(news.changed) : '');
      marks.push(link(text, 'zone-news', addressOf({ zone, tab: 'new' }), zone + ': new since ' + news.since));
    }
    const days = this.snapshot.days.get(zone)?.counts ?? [];
    if (days.length > 1) marks.push(lineOver(days.map(([day, { holds }]) => [day, holds])));
    return make('span', 'zone-marks', ...marks);
  }

  // The sums of all zones day by day, once all counts are there.
  showTrends() {
    const days = this.zones.map(({ zone }) => this.snapshot.days.get(zone)?.counts ?? []);
    if (this.hasTrends || !days.every(({ length }) => length > 0)) return;
    this.hasTrends = true;
    for (const [name, { trend, title }] of Object.entries(this.tiles)) {
      const sums = sumsByDay(days, name);
      if (sums.length > 1) trend.append(lineOver(sums, title));
    }
  }

  // What came and went since the last report of an earlier day, where this browser has one.
  showNews() {
    const all = [...this.snapshot.news.values()];
    this.since.element.hidden = all.length === 0;
    if (all.length === 0) return;
    const sum = (name) => all.reduce((whole, each) => whole + each[name], 0);
    const { element, number, words } = this.since;
    const since = all.map((each) => each.since).sort()[0];
    element.querySelector('.tile-title').textContent = 'Since ' + sinceWords(since, this.snapshot.day);
    number.textContent = '+' + counted(sum('came')) + ' −' + counted(sum('went'));
    words.textContent = '+' + counted(sum('hiper')) + ' HIPER, ' + counted(sum('changed')) + ' changed';
    element.classList.toggle('zero', sum('came') + sum('went') + sum('changed') === 0);
  }

  // Draws a zone's line anew where something of it has changed.
  draw(each, most) {
    const { news, days } = this.snapshot;
    const parts = [each.counts, each.fault, news.get(each.zone), days.get(each.zone), most];
    if (each.drawn?.every((part, at) => part === parts[at])) return;
    each.drawn = parts;
    each.element.replaceChildren(...this.lineOf(each, most));
  }

  lineOf({ zone, sysmods, counts, fault }, most) {
    const name = link(zone, 'zone-name id', addressOf({ zone, tab: 'errors' }));
    const head = make('div', 'zone-head', name, make('span', 'soft', several(sysmods, 'SYSMOD')));
    if (fault) return [head, make('p', 'fault', fault)];
    if (!counts) return [head, make('p', 'soft', 'Asking ..')];
    return [head, this.marksOf(zone), make('div', 'zone-bars', barOf(counts, most)), make('div', 'figures', ...figuresOf(zone, counts))];
  }
}
