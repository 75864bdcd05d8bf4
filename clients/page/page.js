// The page: the token, the address, and what is shown for it. The token is kept in this tab alone.
import { at, emptyState, link, make } from './make.js';
import { sinceWords } from './news.js';
import { NewsView } from './newsview.js';
import { several, timeOf } from './words.js';
import { ALL, REPORT_OF, addressOf, whereIs } from './address.js';
import { AllView } from './allview.js';
import { Refusal, Snapshot, wordsOf } from './desk.js';
import { Overview } from './overview.js';
import { ZoneView } from './zone.js';

const TOKEN = 'bureau-token';
const LISTS = { errors: ['Errors', 'Errors of all zones'], fixes: ['Fixes', 'Fixes of all zones'], new: ['New', 'What is new in all zones'] };
const OLD = 7 * 86400000; // milliseconds, after which HOLDDATA is old
let snapshot = null;
let view = null; // what is shown: all zones, or one

function say(text, isFault = false) {
  at('message').textContent = text;
  at('message').className = isFault ? 'fault' : '';
}

// Tells a screen reader alone, where the eye sees the same in its place, so that nothing is moved when it is over.
function tell(text) {
  say(text);
  at('message').className = 'off';
}

// A token that the desk does not know is not kept, and nothing of it is shown.
function faultOf(fault) {
  const words = wordsOf(fault);
  if (fault instanceof Refusal && [401, 403, 421].includes(fault.status)) forget(words);
  return words;
}

const WAYS = {
  say,
  faultOf,
  go: (where) => {
    if (addressOf(where) === location.hash) show();
    else location.hash = addressOf(where);
  },
  replace: (where) => history.replaceState(null, '', addressOf(where)),
};

// Which of the page's parts are there.
function lay(isOpen) {
  at('enter').hidden = isOpen;
  for (const id of ['again', 'leave', 'level']) at(id).hidden = !isOpen;
}

function empty() {
  snapshot?.end();
  snapshot = null;
  view = null;
  at('main').replaceChildren();
}

function forget(words) {
  sessionStorage.removeItem(TOKEN);
  empty();
  at('token').value = '';
  at('level').textContent = '';
  lay(false);
  const isFault = words !== 'The token is forgotten.';
  at('token').setAttribute('aria-invalid', String(isFault));
  say(words, isFault);
  document.title = 'bureau';
  at('token').focus();
}

// How new the HOLDDATA is. From a week on that is marked.
function agesOf({ newest, number, asked }) {
  const dot = () => make('span', 'dot', ' · ');
  const isOld = asked - Date.parse(newest) >= OLD;
  return [
    ...(newest ? [dot(), make('span', isOld ? 'old' : '', 'HOLDDATA up to ' + newest)] : []),
    ...(number ? [dot(), 'publication ' + number] : []),
  ];
}

// Asks for everything anew. What was shown before goes first.
async function begin(token) {
  const opened = snapshot?.opened ?? null;
  const accepted = snapshot?.accepted ?? null;
  empty();
  const mine = new Snapshot(token);
  mine.opened = opened;
  mine.accepted = accepted;
  snapshot = mine;
  lay(true);
  at('level').textContent = '';
  say('Asking for the zones.');
  document.body.setAttribute('aria-busy', 'true');
  try {
    // what the address names is asked for together with the zones, and shown as soon as both are there
    const { zone, tab } = whereIs(location.hash);
    if (zone && zone !== ALL && tab in REPORT_OF) mine.report(zone, REPORT_OF[tab]).catch(() => {});
    await mine.begin();
    if (mine !== snapshot) return;
    sessionStorage.setItem(TOKEN, token);
    const { sysmods, holds } = mine.level;
    const published = several(sysmods, 'SYSMOD') + ' and ' + several(holds, 'hold') + ' published';
    const asked = make('span', 'asked', 'asked ' + timeOf(mine.asked));
    at('level').replaceChildren(published, ...agesOf(mine), make('span', 'dot', ' · '), asked);
    show();
  } catch (fault) {
    if (mine !== snapshot) return;
    const words = faultOf(fault);
    if (snapshot) say(words, true);
  } finally {
    if (mine === snapshot || !snapshot) document.body.removeAttribute('aria-busy');
  }
}

// Shows what the address names.
async function show() {
  if (!snapshot?.zones) return;
  const where = whereIs(location.hash);
  if (where.zone && where.zone !== ALL && !snapshot.zones.some((each) => each.zone === where.zone)) {
    view = null;
    at('main').replaceChildren(emptyState('?', 'No such zone', '', link('All zones', '', '#')));
    say('You have no zone ' + where.zone + ' on this desk.', true);
    return;
  }
  if (!where.zone) await showOverview();
  else if (where.zone === ALL) await showAll(where);
  else await showZone(where);
}

async function showOverview() {
  if (snapshot.zones.length === 0) {
    at('main').replaceChildren(emptyState('–', 'No zone yet', 'bureau-client sync sends your lists.'));
    say('You have no zone on this desk.');
    return;
  }
  document.title = 'bureau: ' + several(snapshot.zones.length, 'zone');
  const mine = new Overview(snapshot, faultOf);
  view = mine;
  at('main').replaceChildren(mine.element);
  tell('Asking for the reports of ' + several(snapshot.zones.length, 'zone') + '.');
  await mine.done;
  if (view !== mine) return;
  const failed = mine.zones.find((each) => each.fault);
  say(failed ? failed.fault : '', Boolean(failed));
}

// The reports of all zones as one list. A zone whose report did not come is named.
async function showAll(where) {
  const mine = snapshot;
  const waits = {};
  const name = REPORT_OF[where.tab] ?? 'errsysmods';
  if (!(where.tab in LISTS)) where.tab = 'errors';
  document.title = 'All zones – bureau';
  view = waits;
  at('main').replaceChildren(make('p', 'soft wait', 'Asking ..'));
  const reports = [];
  const failed = [];
  await Promise.all(mine.zones.map(async ({ zone }) => {
    try {
      reports.push([zone, await (where.tab === 'new' ? mine.newsOf(zone) : mine.report(zone, name))]);
    } catch (fault) {
      failed.push(zone + ': ' + faultOf(fault));
    }
  }));
  if (view !== waits) return;
  const order = (each) => mine.zones.findIndex(({ zone }) => zone === each[0]);
  reports.sort((one, other) => order(one) - order(other));
  view = where.tab === 'new' ? newsOfAll(reports, mine.day) : new AllView(name, reports, where.words, name === 'errsysmods' ? mine.symptoms : null, {
    choose: (hold) => WAYS.go({ zone: hold.zones[0], tab: where.tab, sysmod: hold.best.id || undefined, words: 'text=' + hold.reason }),
    changed: (words) => WAYS.replace({ ...where, words }),
    say,
  });
  const tabs = Object.entries(LISTS).map(([tab, [title]]) => {
    const made = link(title, 'tab', addressOf({ zone: ALL, tab }));
    if (tab === where.tab) made.setAttribute('aria-current', 'page');
    return made;
  });
  const head = make('div', 'zone-title', link('Zones', 'back', '#', 'All zones'), make('h1', '', LISTS[where.tab][1]), make('nav', 'tabs', ...tabs));
  at('main').replaceChildren(make('div', 'zone-view', head, make('div', 'tab-body', view.element)));
  view.table?.draw(0);
  say(failed.join(' '), failed.length > 0);
}

// What came, went or changed in all zones. NEWS are [zone, {since, changes}], or null for a zone of which this browser has kept nothing.
function newsOfAll(news, today) {
  const known = news.filter(([, told]) => told !== null);
  if (known.length === 0) return { element: emptyState('–', 'Nothing is known yet', 'This browser has no report of an earlier day. From tomorrow on it tells what is new.') };
  const since = known.map(([, told]) => told.since).sort()[0];
  const changes = known.flatMap(([zone, told]) => told.changes.map((change) => ({ ...change, zone })));
  return new NewsView('', sinceWords(since, today), changes, {
    choose: (sysmod, isEntered, hold, zone) => WAYS.go({ zone, tab: 'new', sysmod: sysmod === '-' ? undefined : sysmod }),
    say,
  });
}

async function showZone(where) {
  if (!(view instanceof ZoneView) || view.zone !== where.zone) {
    view = new ZoneView(snapshot, where.zone, WAYS);
    at('main').replaceChildren(view.element);
  }
  document.title = where.zone + ' ' + where.tab + ' – bureau';
  say('');
  await view.show(where);
}

at('enter').addEventListener('submit', (event) => {
  event.preventDefault();
  const token = at('token').value.trim();
  if (!/^[A-Za-z0-9._~-]{8,64}$/.test(token)) {
    forget('A token has 8 to 64 of the characters A-Z a-z 0-9 - . _ ~.');
    return;
  }
  at('token').value = '';
  begin(token);
});
at('leave').addEventListener('click', () => {
  history.replaceState(null, '', location.pathname);
  forget('The token is forgotten.');
});
at('again').addEventListener('click', () => begin(snapshot.token));
// A slash leads to the filter of what is shown, unless something is being written.
document.addEventListener('keydown', (event) => {
  const field = document.querySelector('.filters input');
  if (event.key !== '/' || event.ctrlKey || event.metaKey || event.altKey || !field || event.target.closest('input, select, textarea')) return;
  event.preventDefault();
  field.focus();
  field.select();
});
window.addEventListener('hashchange', show);
window.addEventListener('beforeprint', () => view?.whole?.(true));
window.addEventListener('afterprint', () => view?.whole?.(false));
const kept = sessionStorage.getItem(TOKEN);
if (kept) begin(kept);
else {
  lay(false);
  at('token').focus();
  say('Enter your token. It stays in this tab, and goes to the desk alone.');
}
