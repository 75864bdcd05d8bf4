// What this browser keeps for a caller: of each zone the last reports of today and of an earlier day, and the counts of each
// day. It stays in this browser. A caller is known by a sum over the token, and the token itself is not kept.

const DAYS = 90; // of which counts are kept
const STORE = 'zones';

const done = (request) => new Promise((good, bad) => {
  request.onsuccess = () => good(request.result);
  request.onerror = () => bad(request.error);
});

async function sumOf(token) {
  const sum = await crypto.subtle.digest('SHA-256', new TextEncoder().encode('bureau ' + token));
  return [...new Uint8Array(sum).slice(0, 16)].map((byte) => byte.toString(16).padStart(2, '0')).join('');
}

export class Memory {
  // Null where the browser keeps nothing, as without TLS or in a private window.
  static async of(token) {
    try {
      const opening = indexedDB.open('bureau', 1);
      opening.onupgradeneeded = () => opening.result.createObjectStore(STORE);
      const [base, caller] = await Promise.all([done(opening), sumOf(token)]);
      return new Memory(base, caller);
    } catch (fault) {
      return null;
    }
  }

  constructor(base, caller) {
    Object.assign(this, { base, caller });
  }

  at(mode) {
    return this.base.transaction(STORE, mode).objectStore(STORE);
  }

  // A text of the caller's, by its name.
  get(name) {
    return done(this.at('readonly').get(this.caller + ' ' + name));
  }

  put(name, text) {
    return done(this.at('readwrite').put(text, this.caller + ' ' + name));
  }

  // Keeps what was reported on a day, and gives what is known of the zone: {before, counts}. BEFORE is the last report of an
  // earlier day, {day, errors, fixes}, or null. COUNTS are [day, counts] of each day, the earliest first.
  async keep(zone, day, errors, fixes, counts) {
    const key = this.caller + ' ' + zone;
    const kept = await done(this.at('readonly').get(key));
    const before = kept && kept.day < day ? { day: kept.day, errors: kept.errors, fixes: kept.fixes } : kept?.before ?? null;
    const days = [...(kept?.counts ?? []).filter(([each]) => each < day), [day, counts]].slice(-DAYS);
    if (kept?.day !== day || kept.errors !== errors || kept.fixes !== fixes) {
      await done(this.at('readwrite').put({ day, errors, fixes, before, counts: days }, key));
    }
    return { before, counts: days };
  }
}
