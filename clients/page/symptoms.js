// What SMRTDATA in the COMMENT of holds says, from the file that `publish` keeps beside this page, or one that was opened.
// Nothing here touches the page.
import { fieldsOf } from './save.js';

export const SYMPTOMS = ['DATE', 'CHGDT', 'SYMP', 'FIX'];
const FIRST = ['SYSMOD', 'REASON', ...SYMPTOMS].join(',');
const NOTHING = SYMPTOMS.map(() => '');

// What the flags of SYMP mean. Another one is shown as it is.
const MEANINGS = {
  DAL: 'data loss', FUL: 'loss of function', IPL: 'system outage', PRF: 'performance', PRV: 'pervasive',
};
export const meaningOf = (flag) => MEANINGS[flag] ?? flag;

// A file that is none of symptoms.
export class NoSymptoms extends Error {}

// DATE of a hold is yyddd, and CHGDT yymmdd. The years are 1970 to 2069.
function dayOf(text) {
  if (!/^\d{5,6}$/.test(text)) return text;
  const year = Number(text.slice(0, 2)) + (text < '7' ? 2000 : 1900);
  const [month, day] = text.length === 5 ? [0, Number(text.slice(2))] : [Number(text.slice(2, 4)) - 1, Number(text.slice(4))];
  return new Date(Date.UTC(year, month, day)).toISOString().slice(0, 10);
}

export class Symptoms {
  constructor(text) {
    const [first, ...lines] = text.replace(/^\uFEFF/, '').split(/\r?\n/);
    if (first !== FIRST) throw new NoSymptoms();
    this.known = new Map();
    for (const line of lines) {
      if (!line) continue;
      const [sysmod, reason, ...fields] = fieldsOf(line);
      this.known.set(sysmod + ' ' + reason, fields);
    }
  }

  // The four fields for an ERROR hold, which are empty where the file has no record of it. The last record counts.
  fieldsOf(sysmod, reason) {
    return this.known.get(sysmod + ' ' + reason) ?? NOTHING;
  }

  // The fix by name, or nothing.
  fixOf({ sysmod, reason }) {
    return this.fieldsOf(sysmod, reason)[3] ?? '';
  }

  // Its symptoms, each by itself.
  of({ sysmod, reason }) {
    return (this.fieldsOf(sysmod, reason)[2] ?? '').split(' ').filter(Boolean);
  }

  // All that is known of it, in a sentence; nothing where that is nothing.
  wordsOf(hold) {
    const [date, changed, , fix] = this.fieldsOf(hold.sysmod, hold.reason);
    const parts = [['', this.of(hold).map(meaningOf).join(', ')], ['fix ', fix], ['held ', dayOf(date)], ['changed ', dayOf(changed)]];
    const known = parts.filter(([, text]) => text).map(([name, text]) => name + text);
    return known.length > 0 ? 'HOLDDATA says: ' + known.join('; ') + '.' : '';
  }
}
