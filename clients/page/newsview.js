// What is new in a zone since an earlier day, as a table.
import { classBadge, emptyState, make, statusBadge } from './make.js';
import { several } from './words.js';
import { sumsOf } from './news.js';
import { csvOf, saveButtons } from './save.js';
import { Table } from './table.js';

const MARKS = ['came', 'changed', 'went'];
const KINDS = { SYSMOD: 'error', FMID: 'fix' };

// What it was before, as far as that is another thing.
function wasWords({ hold, was }) {
  if (!was) return '';
  const pairs = [[was.class, hold.class], [was.best.id, hold.best.id], [was.status, hold.status], [was.received, hold.received]];
  return 'was ' + pairs.filter(([one, other]) => one !== other).map(([one]) => one || 'nothing').join(', ');
}

const COLUMNS = [
  { name: 'mark', title: 'New', of: (group) => group.mark, cell: ({ mark }) => make('span', 'badge mark-' + mark, mark) },
  { name: 'kind', title: 'Report', of: (group) => KINDS[group.hold.held], cell: (group) => KINDS[group.hold.held] },
  { name: 'class', title: 'Class', of: (group) => group.hold.class, cell: ({ hold }) => (hold.class ? classBadge(hold.class) : '') },
  { name: 'sysmod', title: 'SYSMOD', of: (group) => group.hold.sysmod, cell: (group) => group.hold.sysmod },
  { name: 'reason', title: 'Reason', of: (group) => group.hold.reason, cell: (group) => group.hold.reason },
  { name: 'resolver', title: 'Resolver', of: (group) => group.hold.best.id, cell: ({ hold }) => make('span', 'id', hold.best.id) },
  { name: 'status', title: 'Status', of: (group) => group.hold.status, cell: ({ hold }) => statusBadge(hold.status) },
  { name: 'was', title: 'Before', of: wasWords, cell: (group) => make('span', 'cut', wasWords(group)) },
];

const ZONE = { name: 'zones', title: 'Zone', of: (group) => group.zone, cell: (group) => make('span', 'id', group.zone) };

// HIPER first, and of each class what came.
const rankOf = ({ mark, hold }) => hold.classRank * MARKS.length + MARKS.indexOf(mark);

// ZONE is empty where the changes are those of several zones, which they tell. WAYS are {choose(sysmod, isEntered, hold, zone), say(text)}.
export class NewsView {
  constructor(zone, since, changes, ways) {
    const { came, went, changed } = sumsOf(changes);
    const place = zone || 'all zones';
    const own = (one) => (zone ? [] : [one.zone]);
    const rows = () => [
      [...(zone ? [] : ['ZONE']), 'NEW', 'REPORT', 'CLASS', 'SYSMOD', 'REASON', 'RESOLVER', 'STATUS', 'BEFORE'],
      ...changes.map((one) =>
        [...own(one), one.mark, KINDS[one.hold.held], one.hold.class, one.hold.sysmod, one.hold.reason, one.hold.best.id, one.hold.status, wasWords(one)]),
    ];
    const saves = saveButtons([{ title: 'CSV', name: (zone || 'zones') + '-news.csv', kind: 'text/csv', text: () => csvOf(rows()) }], ways.say);
    const words = several(came, 'hold') + ' came, ' + went + ' went, ' + changed + ' changed since ' + since + '.';
    this.table = new Table({
      caption: 'What is new in ' + place + ' since ' + since, columns: zone ? COLUMNS : [COLUMNS[0], ZONE, ...COLUMNS.slice(1)],
      order: (one, other) => rankOf(one) - rankOf(other) || one.order - other.order,
      choose: (group, member, isEntered) => ways.choose(group.hold.best.id || '-', isEntered, group.hold, group.zone),
    });
    this.table.show(changes.map((change, order) => ({ ...change, order, resolvers: [], best: change.hold.best, sysmod: change.hold.sysmod, reason: change.hold.reason })));
    const rest = changes.length > 0 ? this.table.element : emptyState('✓', 'Nothing is new', 'No hold came, went or changed in ' + place + ' since ' + since + '.');
    this.element = make('div', 'report news' + (zone ? '' : ' of-zones'), make('div', 'bar', make('p', 'count', words), saves), rest);
  }

  whole(isWhole) {
    this.table.whole(isWhole);
  }
}
