// The holds of all zones as one list: each hold once, with the zones that have it.
import { classBadge, make, orderBadge, statusBadge } from './make.js';
import { byUrgency } from './holds.js';
import { Filters } from './filters.js';
import { Table } from './table.js';
import { csvOf, saveButtons } from './save.js';

// A hold of one zone or several, shown with its best resolver in any of them.
class SharedHold {
  constructor(hold, zone, order) {
    Object.assign(this, { best: hold.best, order, zones: [zone], resolvers: [], first: hold });
    for (const name of ['sysmod', 'reason', 'fmid', 'class', 'classRank', 'status', 'rank', 'received', 'categories', 'accepted']) this[name] = hold[name];
  }

  add(hold, zone) {
    this.zones.push(zone);
    this.accepted &&= hold.accepted;
    if (hold.rank >= this.rank) return;
    for (const name of ['best', 'status', 'rank', 'received']) this[name] = hold[name];
    this.first = hold;
  }

  get text() {
    this.words ??= [this.class, this.sysmod, this.reason, this.fmid, this.best.id, this.status, ...this.categories, ...this.zones].join(' ').toLowerCase();
    return this.words;
  }
}

// REPORTS are [zone, report] of each zone.
export function shared(reports) {
  const found = new Map();
  for (const [zone, report] of reports) {
    for (const hold of report.holds) {
      const key = hold.sysmod + ' ' + hold.reason;
      const known = found.get(key);
      if (known) known.add(hold, zone);
      else found.set(key, new SharedHold(hold, zone, found.size));
    }
  }
  return [...found.values()];
}

const TITLES = { errsysmods: 'Exception SYSMODs of all zones', missingfix: 'Missing fixes of all zones' };
const text = (name, title, of) => ({ name, title, of, cell: of });

function columnsOf(name, symptoms) {
  const state = (hold) => (symptoms && hold.status === 'none' ? orderBadge(symptoms.fixOf(hold)) : statusBadge(hold.status));
  const zones = (hold) => {
    const made = make('span', 'cut', hold.zones.join(' '));
    made.title = hold.zones.join(' ');
    return made;
  };
  return [
    ...(name === 'errsysmods' ? [{ name: 'class', title: 'Class', of: (hold) => hold.class, cell: (hold) => classBadge(hold.class) }] : []),
    text('sysmod', name === 'errsysmods' ? 'SYSMOD' : 'FMID', (hold) => hold.sysmod),
    text('reason', 'Reason', (hold) => hold.reason),
    { name: 'resolver', title: 'Resolver', of: (hold) => hold.best.id, cell: (hold) => make('span', 'id', hold.best.id) },
    { name: 'status', title: 'Status', of: (hold) => hold.status, cell: state },
    { name: 'count', title: 'Zones', of: (hold) => String(hold.zones.length).padStart(3, '0'), cell: (hold) => String(hold.zones.length) },
    { name: 'zones', title: 'In', of: (hold) => hold.zones.join(' '), cell: zones },
  ];
}

// WAYS are {choose(hold), changed(words), say(text)}.
export class AllView {
  constructor(name, reports, words, symptoms, ways) {
    this.holds = shared(reports);
    const kinds = [
      ...(name === 'errsysmods' ? [{ name: 'class', title: 'Class', of: (hold) => [hold.class], order: ['HIPER', 'PE'] }] : []),
      { name: 'status', title: 'Status', of: (hold) => [hold.status], order: ['GOOD', 'HELD', 'LACK', 'none'] },
      { name: 'zone', title: 'Zone', of: (hold) => hold.zones, isList: true },
      { name: 'accepted', title: 'Accepted', of: (hold) => [hold.accepted ? 'accepted' : 'open'], order: ['open', 'accepted'] },
    ];
    this.filters = new Filters(kinds, name === 'errsysmods' ? ['hold', 'holds'] : ['fix', 'fixes'], () => {
      ways.changed(this.filters.words);
      this.show();
    });
    this.filters.words = words;
    this.filters.offer(this.holds);
    this.title = TITLES[name];
    this.table = new Table({
      caption: this.title, columns: columnsOf(name, symptoms), order: byUrgency(symptoms), choose: (hold) => ways.choose(hold),
    });
    const heading = ['SYSMOD', 'REASON', 'CLASS', 'RESOLVER', 'STATUS', 'ZONES'];
    const row = (hold) => [hold.sysmod, hold.reason, hold.class, hold.best.id, hold.status === 'none' ? '' : hold.status, hold.zones.join(' ')];
    const form = { title: 'CSV', name: 'zones-' + name + '.csv', kind: 'text/csv', text: () => csvOf([heading, ...this.shown.map(row)]) };
    const bar = make('div', 'bar', this.filters.element, saveButtons([form], ways.say));
    this.nothing = make('p', 'nothing', 'Nothing has all that is chosen above.');
    this.table.element.append(this.nothing);
    this.element = make('div', 'report all ' + name, bar, this.table.element);
    this.show();
  }

  show() {
    this.shown = this.filters.of(this.holds);
    this.table.name(this.title + (this.filters.shown ? ', only ' + this.filters.shown : ''));
    this.table.show(this.shown);
    this.nothing.hidden = this.shown.length > 0;
  }

  whole(isWhole) {
    this.table.whole(isWhole);
  }
}
