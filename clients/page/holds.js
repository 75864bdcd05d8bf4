// The holds of a report, each with all its resolvers. Nothing here touches the page.
import { NoReport, Report } from './report.js';

const STATUSES = ['GOOD', 'HELD', 'LACK', 'none']; // the best first
const LETTERS = 'GHL-'; // with which they begin in a report
// What a resolver can be, the best first: received comes before not received.
const RANKS = STATUSES.flatMap((status, at) => [{ status, at, isReceived: true }, { status, at, isReceived: false }]);
const CLASSES = ['HIPER', 'PE']; // the most urgent first, and all others after them
const NO_RESOLVER = { id: '', status: 'none', isReceived: false };

// Which of the ranks the resolver of a row has.
function rankOf(report, row) {
  const status = LETTERS.indexOf(report.letter(row, 'STATUS'));
  if (status < 0) throw new NoReport();
  return 2 * status + (report.letter(row, 'RECEIVED') === 'Y' ? 0 : 1);
}

function classRankOf(name) {
  const at = CLASSES.indexOf(name);
  return at < 0 ? CLASSES.length : at;
}

// The resolvers of these rows, each once, the best one first.
function resolversOf(report, rows) {
  const found = new Map();
  for (const row of rows) {
    const id = report.field(row, 'RESOLVER');
    const rank = rankOf(report, row);
    if (id && !found.has(id)) found.set(id, { id, rank, ...RANKS[rank] });
  }
  return [...found.values()].sort((one, other) => one.rank - other.rank);
}

// All words that a hold's lines show, in small letters, for a filter.
function textOf(hold) {
  const { report } = hold;
  const words = [hold.class, hold.sysmod, hold.reason, hold.fmid, ...hold.categories];
  for (const row of hold.rows) {
    const { status, isReceived } = RANKS[rankOf(report, row)];
    words.push(report.field(row, 'RESOLVER'), status, isReceived ? 'received' : '');
  }
  return words.join(' ').toLowerCase();
}

// A hold. What sorts and counts it is known from the start. The rest is cut out of its rows when it is asked for.
class Hold {
  constructor(report, row, order) {
    this.report = report;
    this.rows = [row];
    this.order = order;
    this.class = report.field(row, 'CLASS');
    this.classRank = classRankOf(this.class);
    this.date = ''; // YYYY-MM-DD, once it is known
    this.accepted = null; // {until, why}, where a site has accepted it
    this.news = ''; // `came` or `changed`, since the day of SINCE
    this.since = '';
    this.rank = rankOf(report, row); // that of its best resolver
  }

  add(row) {
    this.rows.push(row);
    this.rank = Math.min(this.rank, rankOf(this.report, row));
  }

  // Which column has the SYSMOD that is held.
  get held() {
    return this.report.held;
  }

  get sysmod() {
    return this.report.field(this.rows[0], this.report.held);
  }

  get reason() {
    return this.report.field(this.rows[0], 'REASON');
  }

  get fmid() {
    return this.report.field(this.rows[0], 'FMID');
  }

  get status() {
    return RANKS[this.rank].status;
  }

  get received() {
    return RANKS[this.rank].isReceived ? 'received' : 'not received';
  }

  get categories() {
    this.named ??= [...new Set(this.rows.map((row) => this.report.field(row, 'CATEGORY')))].filter(Boolean);
    return this.named;
  }

  get resolvers() {
    this.found ??= resolversOf(this.report, this.rows);
    return this.found;
  }

  get best() {
    return this.resolvers[0] ?? NO_RESOLVER;
  }

  get text() {
    this.words ??= textOf(this);
    return this.words;
  }
}

// The holds of a report, in its order. A hold of a fix category has rows for each of its categories.
function holdsOf(report) {
  const holds = new Map();
  let key = '';
  let hold;
  for (let row = 0; row < report.size; row += 1) {
    const next = report.part(row, report.held, 'REASON');
    // the rows of a hold mostly follow one another
    if (next !== key) hold = holds.get(next);
    key = next;
    if (hold) {
      hold.add(row);
    } else {
      hold = new Hold(report, row, holds.size);
      holds.set(key, hold);
    }
  }
  return [...holds.values()];
}

// The errors or the missing fixes of a zone.
export class HoldReport extends Report {
  constructor(name, zone, text) {
    super(name, zone, text);
    this.holds = holdsOf(this);
  }

  // Marks the holds that are accepted: by SYSMOD and reason.
  accept(accepted) {
    for (const hold of accepted.size > 0 ? this.holds : []) hold.accepted = accepted.get(hold.sysmod + ' ' + hold.reason) ?? null;
    return this;
  }
}

// What has to be looked at first: that about which something can be done, since a resolver can be installed or the fix is known by name.
// Then comes what is held, then what nothing resolves, and then what is accepted. In each of these HIPER comes first, then PE, and else as
// the desk has it.
export const byUrgency = (symptoms) => (one, other) => {
  const placeOf = (hold) => {
    if (hold.accepted) return 3;
    if (hold.status === 'none') return symptoms?.fixOf(hold) ? 0 : 2;
    return hold.status === 'GOOD' ? 0 : 1;
  };
  return placeOf(one) - placeOf(other) || one.classRank - other.classRank ||
    RANKS[one.rank].at - RANKS[other.rank].at || one.order - other.order;
};

// The counts of a zone that the overview shows. Holds that are accepted count apart.
export function countsOf(allErrors, allFixes, symptoms) {
  const [errors, fixes] = [allErrors, allFixes].map((all) => all.filter((hold) => !hold.accepted));
  const of = (test) => errors.filter(test).length;
  return {
    accepted: allErrors.length - errors.length + allFixes.length - fixes.length,
    holds: errors.length,
    hiper: of((hold) => hold.class === 'HIPER'),
    pe: of((hold) => hold.class === 'PE'),
    other: of((hold) => hold.class !== 'HIPER' && hold.class !== 'PE'),
    unresolved: of((hold) => hold.status === 'none'),
    order: symptoms ? of((hold) => hold.status === 'none' && symptoms.fixOf(hold)) : 0,
    held: of((hold) => hold.status === 'HELD'),
    good: of((hold) => hold.status === 'GOOD'),
    fixes: fixes.length,
  };
}
