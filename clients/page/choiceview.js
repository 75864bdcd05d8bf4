// What is chosen in a zone: the boxes of its tables, a bar below them with the number, and beside them the chains together with a job.
import { REPORT_OF } from './address.js';
import { Choice, MOST, ONLY, chosenIn, holdsOf, titleOf, together, wantedOf } from './choice.js';
import { jobOf } from './job.js';
import { boxFor, button, make, reasonsOf } from './make.js';
import { holdName, summaryOf } from './plan.js';
import { saveButtons } from './save.js';
import { fewOf, several } from './words.js';

const REPORTS = Object.values(REPORT_OF);

// WAYS are {show(), clear()}.
class Bar {
  constructor(choice, ways) {
    this.choice = choice;
    this.number = make('p', 'count', '');
    this.number.setAttribute('role', 'status');
    this.together = button('', 'main', ways.show);
    this.element = make('div', 'choice-bar', this.number, this.together, button('Choose none', 'plain', ways.clear));
    this.draw();
  }

  draw() {
    const { length } = this.choice.ids;
    this.element.hidden = length === 0;
    this.number.textContent = several(length, 'SYSMOD') + ' chosen';
    this.together.textContent = length === 1 ? 'Show its chain' : 'Show their chains together';
  }
}

function why({ holds, needed_by: needing }) {
  if (holds.length > 0) return 'for ' + fewOf(holds.map(holdName), 3);
  return needing.length > 0 ? 'needed by ' + fewOf(needing, 3) : 'chosen';
}

const curly = (text) => text.replaceAll("'", '’'); // a job has the other sign

function listOf(className, sentences) {
  return sentences.length > 0 ? make('ul', className, ...sentences.map((each) => make('li', '', each + '.'))) : '';
}

// The chains of some SYSMODs as one plan. ONLY is the set of what is wanted of them. WAYS are {age(), say(text)}.
class TogetherView {
  constructor(zone, chains, facts, only, ways) {
    Object.assign(this, { zone, chains, facts, only, ways });
    this.element = make('div', 'together');
    this.draw();
  }

  draw() {
    const { wanted, notes, left } = wantedOf(this.chains, Object.keys(ONLY).filter((name) => this.only.has(name)), this.facts);
    const plan = together(this.zone, wanted, notes, this.facts);
    const boxes = plan.members.map((member) =>
      boxFor(member.id, 'good', why(member), ...reasonsOf('SYSTEM', member.system), ...reasonsOf('USER', member.user)));
    const sysmods = this.chains.filter((chain) => wanted.includes(chain) || chain.status !== 'GOOD').map(({ sysmod }) => sysmod);
    const text = () => jobOf(plan, titleOf(this.zone, sysmods, this.ways.age()));
    const job = { title: 'SMP/E job', name: this.zone + '-chosen.smpcntl.txt', kind: 'text/plain', text };
    this.element.replaceChildren(
      this.chips(), make('p', 'verdict', summaryOf(plan.members, 'Nothing is left to install.')), ...(plan.members.length > 0 ? [saveButtons([job], this.ways.say)] : []),
      listOf('left-out', notes.map(curly)), listOf('left-out soft', left), make('ul', 'members', ...boxes));
  }

  chips() {
    const made = Object.entries(ONLY).map(([name, { title }]) => {
      const chip = button(title, 'chip only-' + name, () => {
        if (!this.only.delete(name)) this.only.add(name);
        this.draw();
        this.element.querySelector('.only-' + name).focus();
      });
      chip.setAttribute('aria-pressed', String(this.only.has(name)));
      return chip;
    });
    const chips = make('div', 'chips', ...made);
    chips.setAttribute('role', 'group');
    chips.setAttribute('aria-label', 'Which of the chosen ones');
    return chips;
  }
}

// WAYS are {beside, table(), go(sysmod), replace(sysmod), say(text, isFault)}: BESIDE is the panel beside the table, and GO and REPLACE
// make what is chosen the address.
export class Choosing {
  constructor(snapshot, zone, ways) {
    Object.assign(this, { snapshot, zone, ways, choice: new Choice(), only: new Set(), isShown: false });
    this.bar = new Bar(this.choice, { show: () => ways.go(this.choice.address), clear: () => this.choose(this.choice.ids, false) });
    this.boxes = {
      keyOf: (group, member = group.best) => (member.status === 'GOOD' ? member.id : ''),
      label: (group, member) => member.id + ' for ' + group.sysmod + ' ' + group.reason,
      has: (id) => this.choice.has(id),
      set: (ids, isOn) => this.choose(ids, isOn),
    };
  }

  // Ticks SYSMODs, or takes their ticks away. What is shown of them together follows.
  choose(ids, isOn) {
    const isDone = this.choice.set([...ids], isOn);
    const tooMany = 'At most ' + MOST + ' SYSMODs can be chosen at once. Show fewer rows, or take the plan, which has all.';
    this.ways.say(isDone ? '' : tooMany, !isDone);
    this.mark();
    if (isDone && this.isShown) this.ways.replace(this.choice.address);
  }

  mark() {
    this.bar.draw();
    this.ways.table()?.tick();
  }

  // Shows the SYSMODs of an address together, and tells whether it names several.
  show(address) {
    const sysmods = chosenIn(address);
    this.isShown = sysmods !== null;
    if (!this.isShown) return false;
    if (sysmods.join() !== this.choice.ids.join()) {
      this.choice.set(this.choice.ids, false);
      this.choice.set(sysmods, true);
      this.mark();
    }
    this.ways.table()?.reveal();
    this.ways.beside.showMany(this.choice.ids, () => this.viewOf(this.choice.ids));
    return true;
  }

  async viewOf(sysmods) {
    const { snapshot, zone } = this;
    const chains = Promise.all(sysmods.map((sysmod) => snapshot.chain(zone, sysmod)));
    chains.catch(() => {}); // it is told below
    const reports = await Promise.all(REPORTS.map((name) => snapshot.report(zone, name)));
    const installed = new Set(reports[0].holds.map((hold) => hold.sysmod)); // only what is installed is held in error
    const received = await this.receivedOf(reports);
    const facts = { holds: holdsOf(sysmods, reports), isReceived: (id) => received.has(id), isInstalled: (id) => installed.has(id) };
    return new TogetherView(zone, await chains, facts, this.only, { age: () => snapshot.age, say: this.ways.say }).element;
  }

  // What was received, as far as both reports tell it of resolvers, and both plans of their members.
  async receivedOf(reports) {
    const plans = await Promise.all(REPORTS.map((name) => this.snapshot.plan(this.zone, name).catch(() => null)));
    const resolvers = reports.flatMap(({ holds }) => holds.flatMap((hold) => hold.resolvers.filter(({ isReceived }) => isReceived)));
    const members = plans.flatMap((plan) => (plan?.members ?? []).filter(({ received }) => received));
    return new Set([...resolvers, ...members].map(({ id }) => id));
  }
}
