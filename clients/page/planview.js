// A zone's plan: what to install, in which order, why, and what to heed; and what is left over.
import { emptyState, make, orderBadge, receivedMark } from './make.js';
import { counted, fewOf } from './words.js';
import { Filters } from './filters.js';
import { holdName, planRows, summaryOf } from './plan.js';
import { jobOf } from './job.js';
import { csvOf, saveButtons } from './save.js';
import { Table } from './table.js';

const NAMES = { errsysmods: 'exception SYSMODs', missingfix: 'missing fixes' };

function why(member) {
  const parts = [];
  if (member.holds.length > 0) parts.push('resolves ' + fewOf(member.holds.map(holdName), 2));
  if (member.needed_by.length > 0) parts.push('needed by ' + fewOf(member.needed_by, 3));
  return parts.join('; ');
}

function heed(member) {
  const marks = [['SYSTEM', member.system], ['USER', member.user]]
    .flatMap(([kind, list]) => list.map((reason) => make('span', 'heed', kind + ' ' + reason)));
  return marks.length > 0 ? make('span', 'cut', ...marks) : '';
}

function cut(text) {
  const made = make('span', 'cut', text);
  made.title = text;
  return made;
}

const COLUMNS = [
  { name: 'step', title: 'Step', of: (group) => group.order, cell: (group) => String(group.step) },
  { name: 'sysmod', title: 'SYSMOD', of: (group) => group.id, cell: (group) => make('span', 'id', group.id) },
  {
    name: 'received', title: 'Received', of: (group) => String(group.received),
    cell: (group) => receivedMark(group.received),
  },
  { name: 'fmid', title: 'FMID', of: (group) => group.fmids.join(' '), cell: (group) => cut(group.fmids.join(' ')) },
  { name: 'heed', title: 'Holds to heed', of: (group) => [...group.system, ...group.user].join(' '), cell: heed },
  { name: 'why', title: 'Why', of: why, cell: (group) => cut(why(group)) },
];

// The members as groups of a table: each has one line. A member can be installed, with its chain.
function groupsOf(plan) {
  return plan.members.map((member, order) => {
    const text = [member.id, ...member.fmids, ...member.system, ...member.user, ...member.holds.flatMap(({ sysmod, reason }) => [sysmod, reason])];
    return {
      ...member, order, resolvers: [], sysmod: member.id, reason: '', best: { id: member.id, status: 'GOOD' },
      classes: [], text: text.join(' ').toLowerCase(),
    };
  });
}

const KINDS = [
  { name: 'class', title: 'Class', of: (group) => group.classes, order: ['HIPER', 'PE'] },
  {
    name: 'received', title: 'Received', order: ['received', 'not received'],
    of: (group) => [group.received ? 'received' : 'not received'],
  },
  {
    name: 'heed', title: 'Hold to heed', isList: true, word: 'hold to heed',
    of: (group) => (group.system.length + group.user.length > 0 ? [...group.system, ...group.user] : ['']),
  },
];

function leftOver(title, words, items) {
  if (items.length === 0) return '';
  const rows = items.slice(0, 500).map((item) => make('li', '', ...item));
  if (items.length > 500) rows.push(make('li', 'soft', 'and ' + (items.length - 500) + ' more: CSV and JSON have all'));
  const head = make('summary', '', make('strong', '', title + ': ' + counted(items.length)), ' ', make('span', 'soft', words));
  return make('details', 'left', head, make('ul', '', ...rows));
}

const id = (text) => make('span', 'id', text);
const holdWords = (hold) => [id(hold.sysmod), ' held for ', id(hold.reason)];

// With SYMPTOMS each says what can be done about it, and what is known by name comes first.
function unresolved(plan, symptoms) {
  if (!symptoms) return plan.unresolved.map(holdWords);
  const known = plan.unresolved.map((hold) => ({ hold, fix: symptoms.fixOf(hold) }));
  const sorted = [...known.filter(({ fix }) => fix), ...known.filter(({ fix }) => !fix)];
  return sorted.map(({ hold, fix }) => [...holdWords(hold), ': ', orderBadge(fix)]);
}

// How a row of needs ends.
function endWords({ giver, published }) {
  if (giver) return ', and so on: they wait for each other';
  return published ? ', which is published for functions that the zone lacks' : ', which nothing that is published gives';
}

function heldWords(hold) {
  const needs = hold.blocked.flatMap(({ need }) => [' → ', id(need)]);
  const end = hold.blocked.length > 0 ? endWords(hold.blocked.at(-1)) : '';
  return [...holdWords(hold), ': ', id(hold.resolver), ' needs', ...needs, end];
}

// WORDS are those of the filter. WAYS are {boxes, choose(sysmod, isEntered), changed(words), say(text)}.
export class PlanView {
  constructor(name, zone, plan, snapshot, words, ways) {
    const title = 'Plan for the ' + NAMES[name] + ' of zone ' + zone + ', ' + snapshot.age;
    const file = zone + '-' + name + '-plan';
    const job = { title: 'SMP/E job', name: file + '.smpcntl.txt', kind: 'text/plain', text: () => jobOf(plan, title) };
    const forms = [
      ...(plan.members.length > 0 ? [job] : []),
      { title: 'CSV', name: file + '.csv', kind: 'text/csv', text: () => csvOf(planRows(plan)) },
      { title: 'JSON', name: file + '.json', kind: 'application/json', text: () => plan.json + '\n' },
    ];
    this.title = 'Plan for the ' + NAMES[name] + ' of ' + zone;
    this.groups = groupsOf(plan);
    this.filters = new Filters(KINDS, ['SYSMOD', 'SYSMODs'], () => {
      ways.changed(this.filters.words);
      this.show();
    });
    this.filters.words = words;
    this.filters.offer(this.groups);
    this.table = new Table({
      caption: this.title, columns: COLUMNS, boxes: ways.boxes,
      order: (one, other) => one.order - other.order,
      choose: (group, member, isEntered) => ways.choose(group.id, isEntered),
    });
    this.nothing = make('p', 'nothing', 'No SYSMOD of the plan has all that is chosen above.');
    this.table.element.append(this.nothing);
    this.note = make('p', 'soft', 'Job, CSV and JSON have the whole plan. Tick boxes for a job of some of it.');
    const isAny = plan.members.length > 0;
    const bar = make('div', 'bar', make('p', 'count', summaryOf(plan.members, 'Nothing can be installed for this report.')), saveButtons(forms, ways.say));
    const filters = make('div', 'bar plan-filters', this.filters.element, this.note);
    this.element = make('div', 'report plan', bar,
      leftOver('Held', 'all resolvers can’t be installed now, and why', plan.held.map(heldWords)),
      leftOver('No resolver', 'nothing that is published resolves these', unresolved(plan, name === 'errsysmods' ? snapshot.symptoms : null)),
      ...(isAny ? [filters, this.table.element] : [emptyState(plan.held.length + plan.unresolved.length > 0 ? '–' : '✓', 'Nothing to install', '')]));
    this.show();
  }

  // The classes of the holds that members resolve come after the plan, since a plan does not tell them.
  classify(holds) {
    const classes = new Map(holds.map((hold) => [hold.sysmod + ' ' + hold.reason, hold.class || (hold.categories.length > 0 ? '' : 'other')]));
    for (const group of this.groups) {
      group.classes = [...new Set(group.holds.map(({ sysmod, reason }) => classes.get(sysmod + ' ' + reason)))].filter(Boolean);
    }
    this.filters.offer(this.groups);
    if (this.filters.words.includes('class=')) this.show();
  }

  show() {
    const shown = this.filters.of(this.groups);
    this.table.name(this.title + (this.filters.shown ? ', only ' + this.filters.shown : ''));
    this.table.show(shown);
    this.note.hidden = shown.length === this.groups.length;
    this.filters.count.hidden = this.note.hidden; // the bar above has the number of all
    this.nothing.hidden = shown.length > 0;
  }
}
