// What the desk answers, as plain values. Nothing here touches the page.

// The columns of each report, counted from 1, as docs/API.md shows them; and which of them has the held SYSMOD.
const REPORTS = {
  zones: { first: 'ZONE     SYSMODS', heading: 0, columns: { ZONE: 1, SYSMODS: 10 } },
  errsysmods: {
    first: 'EXCEPTION SYSMOD REPORT FOR ZONE ', heading: 1, held: 'SYSMOD',
    columns: { FMID: 1, SYSMOD: 10, REASON: 19, RESOLVER: 28, STATUS: 37, RECEIVED: 44, CLASS: 53 },
  },
  missingfix: {
    first: 'MISSING FIX REPORT FOR ZONE ', heading: 1, held: 'FMID',
    columns: { CATEGORY: 1, FMID: 67, REASON: 76, RESOLVER: 85, STATUS: 94, RECEIVED: 101 },
  },
};

// An answer that is no report: a page of something between, half a report, or that of another zone.
export class NoReport extends Error {}

// Where each line of a text begins.
function startsOf(text) {
  const starts = [];
  for (let at = 0; at < text.length; at = text.indexOf('\n', at) + 1) starts.push(at);
  return starts;
}

// A report as the desk gave it. A field is cut out of the text when it is asked for, since most rows of a large report
// are never seen.
export class Report {
  constructor(name, zone, text) {
    const { first, heading, held, columns } = REPORTS[name];
    if (!text.endsWith('\n') || !text.startsWith(first + zone + '\n')) throw new NoReport();
    const starts = startsOf(text);
    const last = starts.pop();
    this.text = text;
    this.starts = starts.slice(heading + 1);
    this.starts.push(last);
    this.size = this.starts.length - 1;
    if (text.slice(last, -1) !== 'ROWS ' + this.size) throw new NoReport();
    this.held = held;
    this.names = Object.keys(columns);
    const ends = [...Object.values(columns).slice(1), Infinity];
    const place = (each, at) => [each, { from: columns[each] - 1, to: ends[at] - 1 }];
    this.columns = Object.fromEntries(this.names.map(place));
  }

  // What stands in a row from one column to the end of another.
  part(row, first, last) {
    const start = this.starts[row];
    const end = Math.min(start + this.columns[last].to, this.starts[row + 1] - 1);
    return this.text.slice(start + this.columns[first].from, end);
  }

  // A field of a row. An absent one is the empty text, and so is one of a column that this report does not have.
  field(row, name) {
    if (!(name in this.columns)) return '';
    const field = this.part(row, name, name).trimEnd();
    return field === '-' || field === '- NONE -' ? '' : field;
  }

  // The first letter of a field.
  letter(row, name) {
    return this.text[this.starts[row] + this.columns[name].from];
  }

  // All fields of a row.
  fields(row) {
    return this.names.map((name) => this.field(row, name));
  }
}

// The zones, each with the number of its SYSMODs.
export function zonesOf(text) {
  const report = new Report('zones', '', text);
  return Array.from({ length: report.size }, (_, row) =>
    ({ zone: report.field(row, 'ZONE'), sysmods: Number(report.field(row, 'SYSMODS')) }));
}

// How many SYSMODs and holds are published.
export function levelOf(text) {
  const found = /^PUBLISHED SYSMODS (\d+) HOLDS (\d+)\n$/.exec(text);
  if (!found) throw new NoReport();
  return { sysmods: Number(found[1]), holds: Number(found[2]) };
}

// The chain of a SYSMOD in a zone, from the desk's JSON, or a fault where that is none.
export function chainOf(text, zone, sysmod) {
  const chain = json(text);
  const isGood = chain?.status === 'GOOD' && Array.isArray(chain.plan) &&
    chain.plan.some((member) => member.id === chain.sysmod);
  const isHeld = chain?.status === 'HELD' && typeof chain.blocked === 'string';
  if (!isGood && !isHeld && chain?.status !== 'LACK') throw new NoReport();
  if (chain.zone !== zone || chain.sysmod !== sysmod) throw new NoReport();
  return chain;
}

// The dates of the holds of a report, from its JSON, by SYSMOD and reason.
export function datesOf(text, zone, name) {
  const report = json(text);
  if (report?.zone !== zone || report.report !== name || !Array.isArray(report.rows)) throw new NoReport();
  return new Map(report.rows.filter(({ date }) => typeof date === 'string').map(({ sysmod, reason, date }) => [sysmod + ' ' + reason, date]));
}

// The counts that a desk makes of a zone itself, from its JSON, as the overview shows them.
export function countsIn(text, zone) {
  const whole = json(text);
  const { hiper, pe, other, unresolved, held, holds, resolved: good } = whole?.errsysmods ?? {};
  const counts = { holds, hiper, pe, other, unresolved, held, good, fixes: whole?.missingfix?.holds };
  if (whole?.zone !== zone || !Object.values(counts).every(Number.isInteger)) throw new NoReport();
  return { accepted: 0, order: 0, ...counts };
}

export function json(text) {
  try {
    return JSON.parse(text);
  } catch (fault) {
    throw new NoReport();
  }
}
