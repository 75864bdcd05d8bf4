// Known and accepted: holds that a site has decided to live with, until a day, from its file accepted.csv. No desk knows of
// them. Nothing here touches the page.
import { fieldsOf } from './save.js';

const FIRST = 'ZONE,SYSMOD,REASON,UNTIL,WHY';

// A file that is none of accepted holds.
export class NoAccepted extends Error {}

export class Accepted {
  constructor(text) {
    const [first, ...lines] = text.replace(/^\uFEFF/, '').split(/\r?\n/);
    if (first !== FIRST) throw new NoAccepted();
    this.text = text;
    this.records = lines.filter(Boolean).map((line) => fieldsOf(line).map((field) => field.trim()));
    const isRecord = ([, , , until = '', why]) => why !== undefined && (!until || /^\d{4}-\d\d-\d\d$/.test(until));
    if (!this.records.every(isRecord)) throw new NoAccepted();
  }

  // The holds of a zone that are accepted on a day: by their SYSMOD and reason, each with UNTIL and WHY.
  of(zone, day) {
    const found = new Map();
    for (const [named, sysmod, reason, until, why] of this.records) {
      if ((named === '*' || named === zone) && (!until || day <= until)) found.set(sysmod + ' ' + reason, { until, why });
    }
    return found;
  }
}
