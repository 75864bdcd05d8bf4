// SYSMODs of a zone that were chosen by their boxes, and their chains together. Nothing here touches the page.

export const MOST = 200; // SYSMODs that are chosen at once: each has a chain to ask for
const ID = /^[A-Z0-9@#$]{1,7}$/;
const BETWEEN = '+'; // in an address, which no id has

// What is chosen, by ids in ascending order.
export class Choice {
  constructor() {
    this.ids = [];
  }

  has(id) {
    return this.ids.includes(id);
  }

  // Tells whether there was room for all of them. Else nothing has changed.
  set(ids, isOn) {
    const rest = this.ids.filter((id) => !ids.includes(id));
    const next = isOn ? [...rest, ...ids] : rest;
    if (next.length > MOST) return false;
    this.ids = next.sort();
    return true;
  }

  // As it stands in an address, where it is of several.
  get address() {
    return this.ids.join(BETWEEN);
  }
}

// The SYSMODs that an address names, if they are several.
export function chosenIn(address) {
  const ids = address.split(BETWEEN);
  return ids.length > 1 && ids.length <= MOST && ids.every((id) => ID.test(id)) ? ids : null;
}

// The holds that each of some SYSMODs resolves, in the order of these reports.
export function holdsOf(ids, reports) {
  const found = new Map(ids.map((id) => [id, new Map()]));
  for (const report of reports) {
    for (const hold of report.holds) {
      for (const { id } of hold.resolvers) found.get(id)?.set(hold.sysmod + ' ' + hold.reason, hold);
    }
  }
  return new Map([...found].map(([id, holds]) => [id, [...holds.values()]]));
}

// Which chains are left out by what is wanted: only those for a HIPER hold, only of what was received, only without a restart.
export const ONLY = {
  hiper: { title: 'only HIPER', why: 'is for no HIPER hold', is: (chain, { holds }) => holds.get(chain.sysmod).some((hold) => hold.class === 'HIPER') },
  received: { title: 'only received', why: 'needs what was not received', is: (chain, { isReceived, isInstalled }) =>
    chain.plan.every(({ id }) => isInstalled(id) || isReceived(id)) },
  ipl: { title: 'without an IPL', why: 'needs an IPL', is: (chain, { isInstalled }) =>
    !chain.plan.some(({ id, system }) => !isInstalled(id) && system.includes('IPL')) },
};

// Why a chain can't be installed, as bureau-client says it too. Empty where it can.
function whyNot({ sysmod, status, blocked }, { isInstalled }) {
  if (status === 'GOOD') return '';
  if (status === 'LACK') return sysmod + ' is not published, or is for a function that the zone lacks';
  if (!isInstalled(sysmod)) return sysmod + " can't be installed: " + blocked + ' is in the way';
  return sysmod + ' is installed, and is held in error: ' + blocked + ' is needed, and nothing that can be installed gives it';
}

// The chains that are wanted; why others can't be installed, each in a sentence; and why ONLY leaves others out. FACTS are
// {holds, isReceived, isInstalled}.
export function wantedOf(chains, only, facts) {
  const notes = chains.map((chain) => whyNot(chain, facts)).filter(Boolean);
  const wanted = [];
  const left = [];
  for (const chain of chains.filter(({ status }) => status === 'GOOD')) {
    const against = only.find((name) => !ONLY[name].is(chain, facts));
    if (against) left.push(chain.sysmod + ' ' + ONLY[against].why);
    else wanted.push(chain);
  }
  return { wanted, notes, left };
}

// All that some chains have, each SYSMOD once, as a plan for a job. It is one: each need of a member is there, or is given by a
// member of its own chain. NOTES are sentences that the job tells. What is installed is no member.
export function together(zone, chains, notes, { holds, isReceived, isInstalled }) {
  const members = new Map();
  for (const chain of chains) {
    for (const member of chain.plan.filter(({ id }) => !isInstalled(id))) {
      const { id } = member;
      if (!members.has(id)) members.set(id, { ...member, received: isReceived(id), holds: [], needed_by: [] });
      if (id === chain.sysmod) members.get(id).holds = holds.get(id);
      else members.get(id).needed_by.push(chain.sysmod);
    }
  }
  const inOrder = [...members.values()].sort((one, other) => (one.id < other.id ? -1 : 1));
  return { zone, members: inOrder, unresolved: [], held: [], notes };
}

// What the job says that it is for.
export const titleOf = (zone, sysmods, age) => 'Chain' + (sysmods.length > 1 ? 's' : '') + ' of ' + sysmods.join(', ') + ' in zone ' + zone + ', ' + age;
