// A report as a table of its holds, with filters, and as a file.
import { classBadge, fileButton, make, orderBadge, receivedMark, statusBadge } from './make.js';
import { byUrgency } from './holds.js';
import { Filters } from './filters.js';
import { Table } from './table.js';
import { csvOf, saveButtons } from './save.js';
import { SYMPTOMS, meaningOf } from './symptoms.js';

const TITLES = { errsysmods: 'Exception SYSMODs of ', missingfix: 'Missing fixes of ' };
const UNITS = { errsysmods: ['hold', 'holds'], missingfix: ['fix', 'fixes'] };
const keyOf = (hold) => hold.sysmod + ' ' + hold.reason;
const text = (name, title, of) => ({ name, title, of, cell: (hold, member, isFirst) => (isFirst ? of(hold) : '') });

// SYMPTOMS tell what can be done about a hold that nothing resolves.
const resolverColumns = (symptoms) => [
  {
    name: 'resolver', title: 'Resolver', of: (hold) => hold.best.id,
    // the status says none to who sees it
    cell: (hold, { id }) => (id ? make('span', 'id', id) : make('span', 'off', 'no resolver')),
  },
  { name: 'status', title: 'Status', of: (hold) => hold.status, cell: (hold, member) =>
    (symptoms && member.status === 'none' ? orderBadge(symptoms.fixOf(hold)) : statusBadge(member.status)) },
  {
    name: 'received', title: 'Received', of: (hold) => hold.received,
    cell: (hold, { id, isReceived }) => (id ? receivedMark(isReceived) : ''),
  },
];

function categories(hold, member, isFirst) {
  if (!isFirst) return '';
  const [first, ...more] = hold.categories;
  const made = make('span', 'cut', first ?? '');
  if (more.length > 0) made.append(make('span', 'soft', ' and ' + more.length + ' more'));
  made.title = hold.categories.join('\n');
  return made;
}

// A hold that is new, or that has changed, has a mark beside its reason.
const REASON = {
  name: 'reason', title: 'Reason', of: (hold) => hold.reason,
  cell: (hold, member, isFirst) => (isFirst ? (hold.news ? make('span', '', hold.reason, newsMark(hold)) : hold.reason) : ''),
};

function newsMark({ news, since }) {
  const mark = make('span', 'news-mark is-' + news);
  mark.title = news + ' since ' + since;
  mark.setAttribute('role', 'img');
  mark.setAttribute('aria-label', mark.title);
  return mark;
}

const COLUMNS = {
  errsysmods: (symptoms) => [
    {
      name: 'class', title: 'Class', of: (hold) => hold.class,
      cell: (hold, member, isFirst) => (isFirst ? classBadge(hold.class) : ''),
    },
    text('sysmod', 'SYSMOD', (hold) => hold.sysmod),
    REASON,
    text('fmid', 'FMID', (hold) => hold.fmid),
    ...resolverColumns(symptoms),
  ],
  missingfix: () => [
    { name: 'category', title: 'Category', of: (hold) => hold.categories[0] ?? '', cell: categories },
    text('fmid', 'FMID', (hold) => hold.fmid),
    REASON,
    ...resolverColumns(null),
  ],
};

const STATUS = { name: 'status', title: 'Status', of: (hold) => [hold.status], order: ['GOOD', 'HELD', 'LACK', 'none'] };
const RECEIVED = { name: 'received', title: 'Received', of: (hold) => [hold.received], order: ['received'] };
const FMID = { name: 'fmid', title: 'FMID', word: 'FMID', of: (hold) => [hold.fmid], isList: true };
const DATE = text('date', 'Date', (hold) => hold.date);
// Of a hold that is four days old all of these are true.
const AGES = [['7', '7 days'], ['30', '30 days'], ['90', '90 days'], ['365', 'a year']];
const AGE = {
  name: 'age', title: 'Age', isList: true, least: 1, order: AGES.map(([days]) => days), label: (days) => 'not older than ' + Object.fromEntries(AGES)[days],
  of: (hold) => (hold.date ? AGES.filter(([days]) => Date.now() - Date.parse(hold.date) <= days * 86400000).map(([days]) => days) : []),
};
const NEWS = { name: 'news', title: 'New', of: (hold) => (hold.news ? [hold.news] : []), order: ['came', 'changed'], least: 1 };
const ACCEPTED = { name: 'accepted', title: 'Accepted', of: (hold) => [hold.accepted ? 'accepted' : 'open'], order: ['open', 'accepted'] };
const KINDS = {
  errsysmods: [{ name: 'class', title: 'Class', of: (hold) => [hold.class], order: ['HIPER', 'PE'] }, STATUS, RECEIVED, NEWS, FMID, AGE, ACCEPTED],
  missingfix: [{ name: 'category', title: 'Category', of: (hold) => hold.categories, isList: true }, STATUS, RECEIVED, NEWS, AGE, ACCEPTED],
};

// What symptoms add to the columns, and to the filters.
function symptomColumns(symptoms) {
  const cut = (words) => (hold, member, isFirst) => {
    if (!isFirst || !words(hold)) return '';
    const made = make('span', 'cut', words(hold));
    made.title = symptoms.wordsOf(hold);
    return made;
  };
  const words = (hold) => symptoms.of(hold).map(meaningOf).join(', ');
  const fix = (hold) => symptoms.fixOf(hold);
  return [{ name: 'fix', title: 'Fix', of: fix, cell: cut(fix) }, { name: 'symptom', title: 'Symptoms', of: words, cell: cut(words) }];
}

const symptomKinds = (symptoms) => [
  {
    name: 'fix', title: 'Fix', order: ['to order', 'nothing known'],
    of: (hold) => (hold.status === 'none' ? [symptoms.fixOf(hold) ? 'to order' : 'nothing known'] : []),
  },
  { name: 'symptom', title: 'Symptom', of: (hold) => symptoms.of(hold), isList: true, label: meaningOf },
];

// The rows of these holds, as the report has them: its columns first, and last what symptoms and the list
// of accepted holds add.
function rowsFor(report, holds, symptoms, accepted) {
  const rows = holds.flatMap((hold) => hold.rows.map((row) => ({ row, hold }))).sort((one, other) => one.row - other.row);
  const heading = [...report.names, ...(symptoms ? SYMPTOMS : []), ...(accepted ? ['UNTIL', 'WHY'] : [])];
  const fields = ({ row, hold }) => [
    ...report.fields(row), ...(symptoms ? symptoms.fieldsOf(hold.sysmod, hold.reason) : []),
    ...(accepted ? [hold.accepted?.until ?? '', hold.accepted?.why ?? ''] : []),
  ];
  return [heading, ...rows.map(fields)];
}

// WAYS are {boxes, choose(hold, member), changed(words), say(text), read(text), accept(text)}. SYMPTOMS may be absent, and so are
// they of missing fixes. ACCEPTED is the site's list of accepted holds, if there is one.
export class HoldsView {
  constructor(name, zone, report, words, symptoms, accepted, ways) {
    this.report = report;
    this.title = TITLES[name] + zone;
    const more = symptoms ? { columns: symptomColumns(symptoms), kinds: symptomKinds(symptoms) } : { columns: [], kinds: [] };
    this.filters = new Filters([...KINDS[name], ...more.kinds], UNITS[name], () => {
      ways.changed(this.filters.words);
      this.show();
    });
    if (symptoms) this.filters.textOf = (hold) => hold.text + ' ' + symptoms.fixOf(hold).toLowerCase() + ' ' + more.columns[1].of(hold);
    this.filters.words = words;
    this.filters.offer(report.holds);
    this.table = new Table({
      caption: this.title, columns: [...COLUMNS[name](symptoms), ...more.columns, DATE], order: byUrgency(symptoms), choose: ways.choose,
      boxes: ways.boxes,
    });
    this.nothing = make('p', 'nothing', 'No ' + UNITS[name][0] + ' has all that is chosen above.');
    this.table.element.append(this.nothing);
    const rows = () => rowsFor(report, this.shown, symptoms, accepted);
    const forms = [
      { title: 'CSV', name: zone + '-' + name + '.csv', kind: 'text/csv', text: () => csvOf(rows()) },
      { title: 'JSON', name: zone + '-' + name + '.json', kind: 'application/json', text: () => this.json(rows()) },
    ];
    const saves = saveButtons(forms, ways.say);
    if (name === 'errsysmods') {
      const open = fileButton('Symptoms', ways.read, 'Open a file of symptoms');
      const accept = fileButton('Accepted', ways.accept, 'Open a file of accepted holds');
      saves.prepend(make('span', 'pair', make('span', 'pair-name', 'Open'), open, accept));
    }
    const bar = make('div', 'bar', this.filters.element, saves);
    this.element = make('div', 'report ' + name + (symptoms ? ' with-symptoms' : ''), bar, this.table.element);
    this.show();
  }

  // The dates of holds come after the report, since the text of a report has none, and so does what is new among them.
  date(dates, news) {
    const marks = new Map(news?.changes.filter(({ hold }) => hold.held === this.report.held).map(({ hold, mark }) => [keyOf(hold), mark]));
    if (dates.size === 0 && marks.size === 0) return;
    for (const hold of this.report.holds) {
      hold.date = dates.get(keyOf(hold)) ?? '';
      if (marks.size > 0) Object.assign(hold, { news: marks.get(keyOf(hold)) ?? '', since: news.since });
    }
    this.filters.offer(this.report.holds);
    if (/(^|&)(age|news)=/.test(this.filters.words)) this.show();
    else this.table.draw();
  }

  json([columns, ...rows]) {
    const object = (row) => Object.fromEntries(row.map((field, at) => [columns[at], field || null]));
    return JSON.stringify(rows.map(object), null, 1) + '\n';
  }

  show() {
    this.shown = this.filters.of(this.report.holds);
    const { shown } = this.filters;
    this.table.name(this.title + (shown ? ', only ' + shown : ''));
    this.table.show(this.shown);
    this.nothing.hidden = this.shown.length > 0;
  }
}
