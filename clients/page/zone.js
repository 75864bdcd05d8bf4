// One zone: its errors, its fixes and its plan as tabs, and the chain beside them.
import { button, emptyState, link, make, painted } from './make.js';
import { counted, several } from './words.js';
import { REPORT_OF, addressOf } from './address.js';
import { Accepted, NoAccepted } from './accepted.js';
import { ChainPanel } from './chain.js';
import { Choosing } from './choiceview.js';
import { HoldsView } from './holdsview.js';
import { NewsView } from './newsview.js';
import { PlanView } from './planview.js';
import { sinceWords } from './news.js';
import { NoSymptoms, Symptoms } from './symptoms.js';

const TITLES = { errors: 'Errors', fixes: 'Fixes', plan: 'Plan', new: 'New' };

// Why a report has no rows, as far as the desk tells. It does not tell the categories.
function whyEmpty(tab, { level, zones }, zone) {
  if (level.sysmods === 0 && level.holds === 0) return emptyState('–', 'Nothing to report', 'Nothing is published yet, so there is nothing to report.');
  if (level.holds === 0) return emptyState('–', 'Nothing to report', 'No hold is published yet, so there is nothing to report.');
  if (zones.some((each) => each.zone === zone && each.sysmods === 0)) return emptyState('–', 'No SYSMOD', 'This zone has no SYSMOD: its list is empty.');
  if (tab === 'errors') return emptyState('✓', 'All clear', 'Nothing is wrong: no installed SYSMOD of this zone is held in error.');
  return emptyState('✓', 'No fix is missing', 'No fix is missing, or no fix categories are set for this zone: the desk does not tell which.');
}

export class ZoneView {
  // WAYS are {say, faultOf, go(where), replace(where)}.
  constructor(snapshot, zone, ways) {
    Object.assign(this, { snapshot, zone, ways, views: {}, where: { zone, tab: 'errors' }, plan: 'errsysmods' });
    this.tabs = Object.fromEntries(Object.keys(TITLES).map((tab) => [tab, this.tab(tab)]));
    this.tabs.plan.hidden = true;
    this.tabs.new.hidden = true;
    this.body = make('div', 'tab-body');
    this.body.setAttribute('role', 'tabpanel');
    this.chain = new ChainPanel({
      chain: (sysmod) => snapshot.chain(zone, sysmod),
      go: (sysmod) => ways.go({ ...this.where, sysmod }),
      close: () => this.leaveChain(),
      faultOf: ways.faultOf,
      isReceived: (id) => this.isReceived(id),
      isInstalled: (id) => this.isInstalled(id),
      giverOf: (need) => this.giverOf(need),
      age: () => snapshot.age,
      symptomsOf: (hold) => (hold.held === 'SYSMOD' ? snapshot.symptoms?.wordsOf(hold) ?? '' : ''),
      fixOf: (hold) => (hold.held === 'SYSMOD' ? snapshot.symptoms?.fixOf(hold) ?? '' : ''),
      say: ways.say,
    });
    this.choosing = new Choosing(snapshot, zone, {
      beside: this.chain,
      table: () => this.view?.table,
      go: (sysmod) => ways.go({ ...this.where, sysmod }),
      replace: (sysmod) => {
        this.where = { ...this.where, sysmod };
        ways.replace(this.where);
        this.showChain(this.where);
      },
      say: ways.say,
    });
    const list = make('div', 'tabs', ...Object.values(this.tabs));
    list.setAttribute('role', 'tablist');
    list.setAttribute('aria-label', 'Reports of ' + zone);
    list.addEventListener('keydown', (event) => this.key(event));
    // a zone among others has its name in the list to choose from
    const name = make('h1', snapshot.zones.length < 2 ? 'id' : 'off', zone);
    const ask = button('Chain', 'any-chain', () => this.chain.open(), 'Find the chain of any SYSMOD');
    const head = make('div', 'zone-title', link('Zones', 'back', '#', 'All zones'), name, this.chooser(), ask, list);
    this.element = make('div', 'zone-view', head, make('div', 'split', this.body, this.chain.element));
  }

  // Another zone, without the way over all of them.
  chooser() {
    const select = make('select', 'other-zone', ...this.snapshot.zones.map(({ zone }) => make('option', '', zone)));
    select.setAttribute('aria-label', 'Go to another zone');
    select.value = this.zone;
    select.hidden = this.snapshot.zones.length < 2;
    select.addEventListener('change', () => this.ways.go({ zone: select.value, tab: this.where.tab }));
    return select;
  }

  tab(tab) {
    const made = link(TITLES[tab], 'tab', addressOf({ zone: this.zone, tab }));
    made.setAttribute('role', 'tab');
    made.id = 'tab-' + tab;
    made.append(make('span', 'tab-count', ''));
    return made;
  }

  // Left and right go from tab to tab.
  key(event) {
    const step = { ArrowLeft: -1, ArrowRight: 1 }[event.key];
    if (!step) return;
    const shown = Object.values(this.tabs).filter((tab) => !tab.hidden);
    const next = shown[(shown.indexOf(document.activeElement) + step + shown.length) % shown.length];
    next.focus();
    next.click();
    event.preventDefault();
  }

  async count() {
    const mark = (tab, text) => (this.tabs[tab].querySelector('.tab-count').textContent = text);
    for (const [tab, name] of Object.entries(REPORT_OF)) {
      this.snapshot.report(this.zone, name).then(({ holds }) => mark(tab, counted(holds.filter((hold) => !hold.accepted).length)), () => mark(tab, '?'));
    }
    this.snapshot.newsOf(this.zone).then((news) => {
      this.tabs.new.hidden = news === null && this.where.tab !== 'new';
      mark('new', counted(news?.changes.length ?? 0));
    }, () => mark('new', '?'));
    try {
      const plan = await this.snapshot.plan(this.zone, 'errsysmods');
      this.tabs.plan.hidden = plan === null;
      if (plan) mark('plan', counted(plan.members.length));
    } catch (fault) {
      this.tabs.plan.hidden = false;
    }
  }

  async show(where) {
    const before = this.where;
    this.where = where;
    for (const [tab, element] of Object.entries(this.tabs)) {
      element.setAttribute('aria-selected', String(tab === where.tab));
      element.tabIndex = tab === where.tab ? 0 : -1;
    }
    this.body.setAttribute('aria-labelledby', 'tab-' + where.tab);
    const isNew = !this.view || before.tab !== where.tab || before.words !== where.words;
    const shows = { plan: () => this.showPlan(), new: () => this.showNews() };
    if (isNew) await (shows[where.tab] ?? (() => this.showReport(where)))();
    // what was asked for is seen first, and the counts of the other tabs follow
    this.counting ??= painted().then(() => this.count());
    if (this.where !== where) return;
    this.showChain(where);
  }

  // Shows what WORK makes, where nothing else was asked for meanwhile.
  async fill(work) {
    const mine = this.where;
    this.view = null;
    this.body.replaceChildren(make('p', 'soft wait', 'Asking ..'));
    this.body.setAttribute('aria-busy', 'true');
    try {
      const parts = await work();
      if (mine !== this.where) return;
      this.body.replaceChildren(...parts, ...(this.view?.table ? [this.choosing.bar.element] : []));
      this.view?.table?.draw(0);
    } catch (fault) {
      if (mine !== this.where || this.snapshot.isEnded) return;
      const words = this.ways.faultOf(fault);
      this.body.replaceChildren(make('p', 'fault', words));
      this.ways.say(words, true);
    } finally {
      if (mine === this.where) this.body.removeAttribute('aria-busy');
    }
  }

  showReport(where) {
    return this.fill(async () => {
      const name = REPORT_OF[where.tab];
      const report = await this.snapshot.report(this.zone, name);
      if (report.holds.length === 0) {
        this.view = {};
        return [whyEmpty(where.tab, this.snapshot, this.zone)];
      }
      const symptoms = name === 'errsysmods' ? this.snapshot.symptoms : null;
      this.view = new HoldsView(name, this.zone, report, where.words, symptoms, this.snapshot.accepted, {
        boxes: this.choosing.boxes,
        choose: (hold, member, isEntered) => {
          this.hold = hold;
          this.isEntered = isEntered;
          this.ways.go({ ...this.where, sysmod: member.id || '-' });
        },
        changed: (words) => {
          this.where = { ...this.where, words };
          this.ways.replace(this.where);
        },
        say: this.ways.say,
        read: (text) => this.readSymptoms(text),
        accept: (text) => this.readAccepted(text),
      });
      this.dating = this.date(this.view, name);
      return [this.view.element];
    });
  }

  async date(view, name) {
    await painted();
    const [dates, news] = await Promise.all([
      this.snapshot.dates(this.zone, name).catch(() => new Map()), this.snapshot.newsOf(this.zone).catch(() => null),
    ]);
    if (this.view === view) view.date(dates, news && { ...news, since: sinceWords(news.since, this.snapshot.day) });
  }

  async classify(view, name) {
    await painted();
    const report = await this.snapshot.report(this.zone, name).catch(() => null);
    if (report && this.view === view) view.classify(report.holds);
  }

  // The symptoms of a file are there for all zones, until the token is forgotten.
  async readSymptoms(text) {
    try {
      this.snapshot.open(new Symptoms(text));
    } catch (fault) {
      if (!(fault instanceof NoSymptoms)) throw fault;
      this.ways.say('This file has no symptoms. publication --symptoms makes one that has.', true);
      return;
    }
    this.ways.say('The file has the symptoms of ' + several(this.snapshot.symptoms.known.size, 'hold') + '.');
    await this.showReport(this.where);
    this.showChain(this.where);
  }

  // What the site has accepted is kept in this browser until another file is opened.
  async readAccepted(text) {
    try {
      await this.snapshot.accept(new Accepted(text));
    } catch (fault) {
      if (!(fault instanceof NoAccepted)) throw fault;
      this.ways.say('This file has no accepted holds: its first line is ZONE,SYSMOD,REASON,UNTIL,WHY.', true);
      return;
    }
    this.ways.say('The file has ' + several(this.snapshot.accepted.records.length, 'accepted hold') + '.');
    await this.showReport(this.where);
    this.showChain(this.where);
    this.count();
  }

  showNews() {
    return this.fill(async () => {
      this.tabs.new.hidden = false;
      const news = await this.snapshot.newsOf(this.zone);
      if (news === null) {
        this.view = {};
        const words = 'This browser has no report of an earlier day on this zone. From tomorrow on it tells what is new.';
        return [emptyState('–', 'Nothing is known yet', words)];
      }
      this.view = new NewsView(this.zone, sinceWords(news.since, this.snapshot.day), news.changes, {
        choose: (sysmod, isEntered, hold) => {
          this.hold = hold;
          this.isEntered = isEntered;
          this.ways.go({ ...this.where, sysmod });
        },
        say: this.ways.say,
      });
      return [this.view.element];
    });
  }

  showPlan() {
    return this.fill(async () => {
      const plan = await this.snapshot.plan(this.zone, this.plan);
      if (plan === null) {
        this.view = {};
        return [emptyState('–', 'No plan', 'This desk has no plans.')];
      }
      const choice = (name, title) => {
        const made = button(title, 'chip', () => {
          this.plan = name;
          this.showPlan();
        });
        made.setAttribute('aria-pressed', String(this.plan === name));
        return made;
      };
      this.view = new PlanView(this.plan, this.zone, plan, this.snapshot, this.where.words, {
        boxes: this.choosing.boxes,
        choose: (sysmod, isEntered) => {
          this.isEntered = isEntered;
          this.ways.go({ ...this.where, sysmod });
        },
        changed: (words) => {
          this.where = { ...this.where, words };
          this.ways.replace(this.where);
        },
        say: this.ways.say,
      });
      this.classify(this.view, this.plan);
      const choices = [choice('errsysmods', 'For the errors'), choice('missingfix', 'For the fixes')];
      const chips = make('div', 'chips plan-of', ...choices);
      chips.setAttribute('role', 'group');
      chips.setAttribute('aria-label', 'Plan for');
      this.view.element.querySelector('.bar').prepend(chips);
      return [this.view.element];
    });
  }

  showChain({ sysmod, tab }) {
    if (this.choosing.show(sysmod ?? '')) {
      this.hold = undefined;
      this.focusIfEntered();
      return;
    }
    const hold = sysmod && tab !== 'plan' ? this.holdOf(sysmod) : undefined;
    const isReport = tab in REPORT_OF;
    const member = hold?.resolvers.find((each) => each.id === sysmod) ?? hold?.best;
    if (isReport) this.view?.table?.reveal(hold, member);
    if (!sysmod) {
      this.chain.empty();
      return;
    }
    this.chain.show(sysmod === '-' ? '' : sysmod, hold);
    this.focusIfEntered();
  }

  // By the keyboard the chain is the next thing to read; Escape leads back.
  focusIfEntered() {
    if (this.isEntered) this.chain.element.focus();
    this.isEntered = false;
  }

  // The hold of the row that was chosen, or the first that this SYSMOD resolves.
  holdOf(sysmod) {
    const resolves = ({ resolvers }) =>
      (sysmod === '-' ? resolvers.length === 0 : resolvers.some((each) => each.id === sysmod));
    if (this.hold && resolves(this.hold)) return this.hold;
    return sysmod === '-' ? undefined : this.view?.report?.holds.find(resolves);
  }

  // Whether the report that is shown says that a SYSMOD was received.
  isReceived(id) {
    const holds = this.view?.report?.holds ?? [];
    return holds.some((hold) => hold.resolvers.some((each) => each.id === id && each.isReceived));
  }

  // Whether a SYSMOD is held in error: only what is installed is.
  async isInstalled(id) {
    const report = await this.snapshot.report(this.zone, 'errsysmods').catch(() => null);
    return Boolean(report?.holds.some((hold) => hold.sysmod === id));
  }

  // What would give a need that nothing good gives, as the plan's row of it tells, or the best resolver of a hold for it:
  // {giver, published}, where `giver` is null if nothing for this zone gives it. Undefined is not known.
  async giverOf(need) {
    const name = REPORT_OF[this.where.tab] ?? this.plan;
    const asked = [this.snapshot.plan(this.zone, name), this.snapshot.report(this.zone, 'errsysmods')];
    const [plan, report] = await Promise.all(asked.map((answer) => answer.catch(() => null)));
    const row = plan?.blocked.find((each) => each.need === need);
    const best = report?.holds.find((hold) => hold.reason === need)?.best;
    if (row || !best || best.status === 'GOOD') return row;
    return { giver: best.status === 'HELD' ? best.id : null, published: best.status !== 'none' };
  }

  leaveChain() {
    this.hold = undefined;
    this.view?.table?.reveal();
    this.view?.table?.focus();
    this.ways.go({ ...this.where, sysmod: '' });
  }

  // On paper nothing is folded away.
  whole(isWhole) {
    for (const part of this.body.querySelectorAll('details')) {
      if (isWhole && !part.open) part.dataset.folded = 'yes';
      part.open = isWhole || !part.dataset.folded && part.open;
      if (!isWhole) delete part.dataset.folded;
    }
    this.view?.table?.whole(isWhole);
  }
}
