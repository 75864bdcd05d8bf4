// Questions to the desk, and what is kept of its answers. The desk stands one folder above this page.
import { Accepted } from './accepted.js';
import { HoldReport, countsOf } from './holds.js';
import { NoReport, chainOf, countsIn, datesOf, levelOf, zonesOf } from './report.js';
import { Memory } from './memory.js';
import { changesOf, sumsOf } from './news.js';
import { planOf } from './plan.js';
import { Symptoms } from './symptoms.js';
import { dayOf, timeOf } from './words.js';

// A refusal, with the words that are shown for it.
export class Refusal extends Error {
  constructor(text, status) {
    super(text);
    this.status = status;
  }
}

const AT_ONCE = 3; // a front lets one token ask four questions at a time
const PAUSES = [500, 1000, 2000]; // milliseconds, before a question is asked again for which there was no room
const KEPT = 16; // answers about reports that are kept; of the other zones their counts alone
const CHAINS = 1000; // chains that are kept, which are small

function refusalOf(status, body) {
  if (status === 401) return new Refusal('The desk does not know this token.', status);
  // a front tells the publisher 421
  if (status === 403 || status === 421) {
    return new Refusal('This is the publisher’s token, and the publisher has no zones.', status);
  }
  if (status === 404) return new Refusal('The desk has no such zone or SYSMOD of yours.', status);
  if (status >= 500) {
    const text = 'No answer: the desk is away or has no room now (' + status + '). Try again later.';
    return new Refusal(text, status);
  }
  return new Refusal('The desk refuses (' + status + '): ' + body.slice(0, 100), status);
}

// What one desk said to one caller since a moment: its zones, its level, its reports. All of it is asked for once.
export class Snapshot {
  constructor(token) {
    this.token = token;
    this.asked = new Date();
    this.answers = new Map();
    this.chains = new Map();
    this.counts = new Map();
    this.days = new Map(); // of each zone {before, counts}: what this browser has kept of it
    this.news = new Map(); // of each zone {since, came, went, changed, hiper}, where it has kept a report of an earlier day
    this.newest = ''; // the day of the newest hold, and the number of the last publication, where the publisher keeps them here
    this.number = 0;
    this.memory = Memory.of(token);
    this.accepted = null; // what the site has accepted, where its file was opened in this browser
    this.served = null; // the symptoms that stand beside this page
    this.opened = null; // those of a file, where one was opened
    this.ending = new AbortController();
    this.running = 0;
    this.waiting = [];
  }

  get symptoms() {
    return this.opened ?? this.served;
  }

  // The symptoms of a file are those of all zones.
  open(symptoms) {
    this.opened = symptoms;
    this.counts.clear();
  }

  // What a site accepts is kept in this browser, and all is counted anew.
  async accept(accepted) {
    this.accepted = accepted;
    for (const each of [this.answers, this.counts, this.days, this.news]) each.clear();
    await (await this.memory)?.put('accepted', accepted.text);
  }

  // The holds of a zone that are accepted on a day.
  acceptedOf(zone, day = this.day) {
    return this.accepted?.of(zone, day) ?? new Map();
  }

  // Nothing more is asked, and what is under way is dropped.
  end() {
    this.ending.abort();
    this.waiting = [];
  }

  get isEnded() {
    return this.ending.signal.aborted;
  }

  // One question, when it is its turn. What is URGENT comes before the others.
  async ask(path, isUrgent = true) {
    if (this.running >= AT_ONCE) {
      await new Promise((turn) => (isUrgent ? this.waiting.unshift({ path, turn }) : this.waiting.push({ path, turn })));
    } else {
      this.running += 1;
    }
    try {
      return await this.patiently(path);
    } finally {
      const next = this.waiting.shift();
      if (next) next.turn();
      else this.running -= 1;
    }
  }

  // What waits for its turn comes next.
  hasten(path) {
    const at = this.waiting.findIndex((each) => each.path === path);
    if (at > 0) this.waiting.unshift(...this.waiting.splice(at, 1));
  }

  // Where the same token asks in another tab too, a front has no room for some of its questions.
  async patiently(path) {
    for (const pause of PAUSES) {
      try {
        return await this.send(path);
      } catch (fault) {
        if (fault.status !== 503 || this.isEnded) throw fault;
      }
      await new Promise((over) => setTimeout(over, pause));
    }
    return this.send(path);
  }

  async send(path) {
    const url = new URL(path.startsWith('/') ? '..' + path : path, document.baseURI);
    const headers = { 'bureau-token': this.token };
    const { signal } = this.ending;
    let reply;
    let body = '';
    try {
      reply = await fetch(url, { headers, signal, cache: 'no-store', credentials: 'omit' });
      body = await reply.text();
    } catch (fault) {
      if (!reply || reply.status === 200) {
        throw new Refusal('No answer: the desk is away, or the network is. Try again later.', 0);
      }
    }
    if (reply.status !== 200) throw refusalOf(reply.status, body);
    return body;
  }

  // The answer to a question, which is asked once. A refusal is not kept. Of many answers the last MOST are.
  kept(key, work, answers = this.answers, most = KEPT) {
    let answer = answers.get(key);
    if (!answer) {
      answer = work();
      answer.catch(() => answers.delete(key));
    }
    // what was used last goes last
    answers.delete(key);
    answers.set(key, answer);
    for (const old of answers.keys()) {
      if (answers.size <= most) break;
      answers.delete(old);
    }
    return answer;
  }

  // The zones, and how much is published.
  async begin() {
    const [zones, level] = await Promise.all([this.ask('/zones'), this.ask('/published'), this.askSymptoms(), this.askNumber(), this.recall()]);
    this.zones = zonesOf(zones);
    this.level = levelOf(level);
  }

  // The symptoms that a publisher keeps beside this page. Where there are none, nothing is said of them.
  async askSymptoms() {
    try {
      const served = new Symptoms(await this.send('symptoms.csv'));
      this.served = served.known.size > 0 ? served : null;
    } catch (fault) {
      this.served = null;
    }
  }

  // What the site has accepted, as it was opened in this browser.
  async recall() {
    try {
      const text = await (await this.memory)?.get('accepted');
      if (text) this.accepted = new Accepted(text);
    } catch (fault) {
      // then nothing is accepted
    }
  }

  // How new the HOLDDATA is, and which publication was the last, where the publisher keeps that beside this page.
  async askNumber() {
    try {
      const { newest, number } = JSON.parse(await this.send('publication.json'));
      if (/^\d{4}-\d\d-\d\d$/.test(newest)) this.newest = newest;
      if (Number.isInteger(number)) this.number = number;
    } catch (fault) {
      // nothing is known of it
    }
  }

  pathOf(zone, ...parts) {
    return ['', 'zones', zone, ...parts].map(encodeURIComponent).join('/');
  }

  report(zone, name, isUrgent = true) {
    const path = this.pathOf(zone, name);
    if (isUrgent) this.hasten(path);
    return this.kept(name + ' ' + zone, async () => new HoldReport(name, zone, await this.ask(path, isUrgent)).accept(this.acceptedOf(zone)));
  }

  // The dates of the holds of a report. They come as JSON, which is larger, and so after the rest.
  dates(zone, name) {
    return this.kept('dates ' + name + ' ' + zone, async () => datesOf(await this.ask(this.pathOf(zone, name + '.json'), false), zone, name));
  }

  // What the desk counts of a zone itself, which comes long before its reports. Null where it doesn't, and where holds are accepted,
  // of which no desk knows.
  async countsByDesk(zone) {
    if (this.acceptedOf(zone).size > 0) return null;
    try {
      return countsIn(await this.ask(this.pathOf(zone, 'counts.json'), false), zone);
    } catch (fault) {
      if (fault instanceof Refusal && fault.status === 404) return null;
      throw fault;
    }
  }

  // The counts of a zone. They stay, also where its reports are not kept.
  async countsOf(zone, isUrgent = true) {
    const both = ['errsysmods', 'missingfix'].map((name) => this.report(zone, name, isUrgent));
    const [errors, fixes] = await Promise.all(both);
    const counts = countsOf(errors.holds, fixes.holds, this.symptoms);
    this.counts.set(zone, counts);
    await this.remember(zone, errors, fixes, counts);
    return counts;
  }

  // Keeps the reports of a zone for another day, and tells what is new since an earlier one.
  async remember(zone, errors, fixes, counts) {
    if (this.days.has(zone)) return;
    try {
      const memory = await this.memory;
      const kept = await memory?.keep(zone, this.day, errors.text, fixes.text, counts);
      if (!kept) return;
      this.days.set(zone, kept);
      if (kept.before) this.news.set(zone, { since: kept.before.day, ...sumsOf(this.changesSince(zone, kept.before, errors, fixes)) });
    } catch (fault) {
      // a browser that keeps nothing, or something that is no report any more: nothing is told
    }
  }

  changesSince(zone, before, errors, fixes) {
    const [then, now] = [before.day, this.day].map((day) => this.acceptedOf(zone, day));
    const isSame = then.size === now.size;
    return [['errsysmods', before.errors, errors], ['missingfix', before.fixes, fixes]].flatMap(([name, text, report]) => {
      if (isSame && text === report.text) return [];
      const old = text === report.text ? report : new HoldReport(name, zone, text);
      return changesOf(old, report, (key) => then.has(key), (key) => now.has(key));
    });
  }

  // What is new in a zone: {since, changes}, or null where this browser has no report of an earlier day.
  newsOf(zone) {
    return this.kept('news ' + zone, async () => {
      await this.countsOf(zone);
      const before = this.days.get(zone)?.before;
      if (!before) return null;
      const [errors, fixes] = await Promise.all(['errsysmods', 'missingfix'].map((name) => this.report(zone, name)));
      return { since: before.day, changes: this.changesSince(zone, before, errors, fixes) };
    });
  }

  get day() {
    return dayOf(this.asked);
  }

  // The plan of a report, or null where this desk has no such call.
  plan(zone, name) {
    return this.kept('plan ' + name + ' ' + zone, async () => {
      try {
        return planOf(await this.ask(this.pathOf(zone, name, 'plan.json')), zone, name);
      } catch (fault) {
        if (fault instanceof Refusal && fault.status === 404) return null;
        throw fault;
      }
    });
  }

  // How much is published, and when it was asked for.
  get age() {
    const { sysmods, holds } = this.level;
    return 'published ' + sysmods + ' SYSMODs and ' + holds + ' holds, asked ' + timeOf(this.asked);
  }

  chain(zone, sysmod) {
    const work = async () => chainOf(await this.ask(this.pathOf(zone, 'chains', sysmod)), zone, sysmod);
    return this.kept(zone + ' ' + sysmod, work, this.chains, CHAINS);
  }
}

// What is said of a fault of an answer. Another fault is one of this page, and goes on.
export function wordsOf(fault) {
  if (fault instanceof Refusal) return fault.message;
  if (fault instanceof NoReport) return 'What came is no answer of a desk. Nothing of it is shown.';
  throw fault;
}
