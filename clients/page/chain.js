// What stands beside the table: one hold with its resolvers, and the chain of one of them.
import { jobOf } from './job.js';
import { saveButtons } from './save.js';
import { boxFor, button, classBadge, make, reasonsOf, statusBadge } from './make.js';
import { several } from './words.js';

const STEPS = 12; // of a row of blocked needs

// Of a SYSMOD that the report shows as installed.
function sentenceOfInstalled({ sysmod, status, plan, blocked }) {
  const words = sysmod + ' is installed, and is held in error. ';
  if (status === 'GOOD') return words + several(plan.length - 1, 'other SYSMOD') + ' would give what it needs.';
  if (status === 'HELD') return words + 'It needs ' + blocked + ', and nothing that can be installed gives that.';
  return words + 'It has no chain: it is not published, or is a base function.';
}

function sentence(chain, isInstalled) {
  if (isInstalled) return sentenceOfInstalled(chain);
  if (chain.status === 'GOOD') {
    const others = chain.plan.length - 1;
    if (others === 0) return chain.sysmod + ' can be installed by itself.';
    return chain.sysmod + ' can be installed, together with ' + several(others, 'other SYSMOD') + '.';
  }
  if (chain.status === 'HELD') return chain.sysmod + ' can’t be installed now: ' + chain.blocked + ' is in the way.';
  return chain.sysmod + ' is not published, or is for a function that the zone lacks.';
}

const ownWords = (isInstalled) => (isInstalled ? 'asked for, and installed' : 'asked for');

// The members of a plan, the SYSMOD that was asked for first.
function membersOf(chain, isInstalled) {
  const own = chain.plan.filter((member) => member.id === chain.sysmod);
  const others = chain.plan.filter((member) => member.id !== chain.sysmod);
  const boxes = [...own, ...others].map((member) => {
    const words = member.id === chain.sysmod ? ownWords(isInstalled) : 'to be installed too';
    return boxFor(member.id, 'good', words, ...reasonsOf('SYSTEM', member.system), ...reasonsOf('USER', member.user));
  });
  return make('ul', 'members', ...boxes);
}

// A chain as a plan of its own, for a job. A chain does not tell which members were received: RECEIVE names all of
// which the report does not say so. What is installed is no member.
function planOf(chain, hold, isReceived, isInstalled) {
  const wanted = chain.plan.filter((member) => !isInstalled || member.id !== chain.sysmod);
  const members = wanted.map((member) => ({
    ...member, received: isReceived(member.id), needed_by: member.id === chain.sysmod ? [] : [chain.sysmod],
    holds: hold && member.id === chain.sysmod ? [{ sysmod: hold.sysmod, reason: hold.reason }] : [],
  }));
  return { zone: chain.zone, members, unresolved: [], held: [] };
}

const acceptedWords = ({ until, why }) => 'Accepted' + (until ? ' until ' + until : '') + (why ? ': ' + why : '') + '.';

const NEEDED = {
  LACK: 'is needed. What would give it is held, or is not for this zone, or is not published',
  HELD: 'is needed, and is held itself',
  GOOD: 'is needed, and could be installed by itself, but not together with the rest',
};

// What is known of a need, and the chain that leads on from it. The chain of the need itself does not tell what else
// would give it.
async function aboutNeed(need, chainOf, giverOf) {
  const known = await giverOf(need);
  if (known?.giver === null) {
    const words = known.published ? 'is needed, and is published for functions that the zone lacks'
      : 'is needed, and nothing that is published gives it';
    return { chain: { status: 'LACK' }, words };
  }
  const chain = await chainOf(known?.giver ?? need);
  if (!known || known.giver === need) return { chain, words: NEEDED[chain.status] };
  const why = chain.status === 'HELD' ? ', which is held: it needs ' + chain.blocked : '';
  return { chain, words: 'is needed, and would be given by ' + known.giver + why };
}

// The row of needs that are in the way: each is followed to the first that nothing gives.
async function rowOfNeeds(first, isInstalled, chainOf, giverOf) {
  const boxes = [boxFor(first.sysmod, 'held', ownWords(isInstalled))];
  const passed = new Set([first.sysmod]);
  let chain = first;
  while (chain.status === 'HELD' && passed.size < STEPS) {
    const need = chain.blocked;
    if (passed.has(need)) {
      boxes.push(make('li', 'soft', 'and so on: ' + need + ' stands above, and waits for this'));
      break;
    }
    passed.add(need);
    const next = await aboutNeed(need, chainOf, giverOf);
    chain = next.chain;
    boxes.push(boxFor(need, chain.status.toLowerCase(), next.words));
  }
  return make('ol', 'members needs', ...boxes);
}

export class ChainPanel {
  // CHAIN(sysmod) asks; GO(sysmod) makes another one the address; CLOSE leaves; ISRECEIVED(id) tells what is known of
  // it; ISINSTALLED(id) and GIVEROF(need) ask for that; AGE() is how old all of it is; SYMPTOMSOF(hold) is what a file
  // of symptoms says of it, and FIXOF(hold) the fix that it names.
  constructor({ chain, go, close, faultOf, isReceived, isInstalled, giverOf, age, symptomsOf, fixOf, say }) {
    Object.assign(this, { chain, go, faultOf, isReceived, isInstalled, giverOf, age, symptomsOf, fixOf, say, turn: 0 });
    this.input = make('input', 'id');
    Object.assign(this.input, { autocomplete: 'off', spellcheck: false, required: true });
    Object.assign(this.input, { maxLength: 7, pattern: '[A-Za-z0-9@#$]{1,7}' });
    this.input.setAttribute('aria-label', 'SYSMOD');
    this.input.placeholder = 'SYSMOD';
    const ask = make('button', '', 'Show its chain');
    const form = make('form', 'ask-chain', this.input, ask);
    form.addEventListener('submit', (event) => {
      event.preventDefault();
      this.go(this.input.value.toUpperCase());
    });
    this.hold = make('div', 'hold');
    this.picture = make('div', 'picture');
    this.picture.setAttribute('aria-live', 'polite');
    this.title = make('h2', '', 'Chain');
    const leave = button('Close', 'close', close, 'Close the chain');
    this.element = make('aside', 'beside', make('div', 'beside-head', this.title, leave), form, this.hold, this.picture);
    this.element.setAttribute('aria-label', 'Chain');
    this.element.tabIndex = -1;
    this.element.addEventListener('keydown', (event) => {
      if (event.key === 'Escape') close();
    });
    this.empty();
  }

  empty() {
    this.turn += 1;
    this.element.removeAttribute('aria-busy');
    this.element.classList.remove('is-open');
    this.title.textContent = 'Chain';
    this.input.value = '';
    this.hold.replaceChildren();
    const words = 'Choose a row to see what has to be installed with its resolver, or enter any SYSMOD.';
    this.picture.replaceChildren(make('p', 'soft', words));
  }

  // Where there is no room beside the table, the panel is not there until it is opened.
  open() {
    this.element.classList.add('is-open');
    this.input.focus();
  }

  // HOLD is that of the row, where a row was chosen.
  async show(sysmod, hold) {
    this.turn += 1;
    const mine = this.turn;
    this.element.classList.add('is-open');
    this.input.value = sysmod;
    this.title.textContent = sysmod ? 'Chain of ' + sysmod : 'No resolver';
    this.hold.replaceChildren(...(hold ? this.about(hold, sysmod) : []));
    this.picture.replaceChildren();
    this.element.removeAttribute('aria-busy');
    if (!sysmod) {
      this.picture.append(make('p', '', 'No published SYSMOD resolves this hold yet.'), ...this.toOrder(hold));
      return;
    }
    this.element.setAttribute('aria-busy', 'true');
    let shown;
    try {
      const [chain, isInstalled] = await Promise.all([this.chain(sysmod), this.isInstalled(sysmod)]);
      shown = [make('p', 'verdict', statusBadge(chain.status), ' ' + sentence(chain, isInstalled))];
      if (mine === this.turn) this.picture.replaceChildren(...shown);
      if (chain.status === 'GOOD') shown.push(membersOf(chain, isInstalled), this.job(chain, hold, isInstalled));
      if (chain.status === 'HELD') shown.push(await rowOfNeeds(chain, isInstalled, this.chain, this.giverOf));
    } catch (fault) {
      shown = [make('p', 'fault', this.faultOf(fault))];
    }
    if (mine !== this.turn) return;
    this.element.removeAttribute('aria-busy');
    this.picture.replaceChildren(...shown);
  }

  // Several SYSMODs. WORK makes what is shown of their chains together.
  async showMany(sysmods, work) {
    this.turn += 1;
    const mine = this.turn;
    this.element.classList.add('is-open');
    this.input.value = '';
    this.title.textContent = several(sysmods.length, 'chain') + ' together';
    this.hold.replaceChildren();
    this.picture.replaceChildren(make('p', 'soft', 'Asking for the chains ..'));
    this.element.setAttribute('aria-busy', 'true');
    let shown;
    try {
      shown = await work();
    } catch (fault) {
      shown = make('p', 'fault', this.faultOf(fault));
    }
    if (mine !== this.turn) return;
    this.element.removeAttribute('aria-busy');
    this.picture.replaceChildren(shown);
  }

  job(chain, hold, isInstalled) {
    const title = 'Chain of ' + chain.sysmod + ' in zone ' + chain.zone + ', ' + this.age();
    const text = () => jobOf(planOf(chain, hold, this.isReceived, isInstalled), title);
    const name = chain.zone + '-' + chain.sysmod + '.smpcntl.txt';
    return saveButtons([{ title: 'SMP/E job', name, kind: 'text/plain', text }], this.say);
  }

  // The fix that HOLDDATA names where nothing that is published is one.
  toOrder(hold) {
    const fix = hold && this.fixOf(hold);
    return fix ? [make('p', 'verdict', 'HOLDDATA names ', make('strong', 'id', fix), ' as its fix: order it.')] : [];
  }

  // The hold, and its other resolvers.
  about(hold, sysmod) {
    const resolvers = hold.resolvers.map((each) => {
      const made = button(each.id, 'pick', () => this.go(each.id), 'Chain of ' + each.id);
      made.append(statusBadge(each.status), ...(each.isReceived ? [make('span', 'yes', 'received')] : []));
      if (each.id === sysmod) made.setAttribute('aria-current', 'true');
      return made;
    });
    const symptoms = this.symptomsOf(hold);
    const names = hold.class || hold.categories.length === 0 ? [classBadge(hold.class)] : [];
    return [
      make('p', '', ...names, ' ', make('strong', 'id', hold.sysmod), ' is held for ', make('strong', 'id', hold.reason),
        ...(hold.held === 'SYSMOD' && hold.fmid ? [' ', make('span', 'soft id', hold.fmid)] : [])),
      ...hold.categories.map((name) => make('p', 'soft category', name)),
      ...(symptoms ? [make('p', 'soft symptoms', symptoms)] : []),
      ...(hold.accepted ? [make('p', 'soft', acceptedWords(hold.accepted))] : []),
      make('div', 'picks', ...resolvers),
    ];
  }
}
