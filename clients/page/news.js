// What came, went or changed from one report to another. Nothing here touches the page.

const signOf = (hold) => [hold.class, hold.best.id, hold.status, hold.received].join(' ');
const keyOf = (hold) => hold.sysmod + ' ' + hold.reason;

// The holds of two reports, as {mark, hold, was}: `came`, `went`, or `changed`, where WAS is what it was before. What is accepted
// now is no news, and one that was accepted before and is not any more came.
export function changesOf(before, now, isAcceptedBefore, isAccepted) {
  const old = new Map(before.holds.map((hold) => [keyOf(hold), hold]).filter(([key]) => !isAcceptedBefore(key) && !isAccepted(key)));
  const changes = [];
  for (const hold of now.holds) {
    if (isAccepted(keyOf(hold))) continue;
    const was = old.get(keyOf(hold));
    old.delete(keyOf(hold));
    if (!was) changes.push({ mark: 'came', hold });
    else if (signOf(was) !== signOf(hold)) changes.push({ mark: 'changed', hold, was });
  }
  return [...changes, ...[...old.values()].map((hold) => ({ mark: 'went', hold }))];
}

// How many came and went, and how many of those that came are HIPER.
export function sumsOf(changes) {
  const of = (test) => changes.filter(test).length;
  return {
    came: of(({ mark }) => mark === 'came'), went: of(({ mark }) => mark === 'went'), changed: of(({ mark }) => mark === 'changed'),
    hiper: of(({ mark, hold }) => mark === 'came' && hold.class === 'HIPER'),
  };
}

// `yesterday`, or the day.
export function sinceWords(day, today) {
  const before = new Date(Date.parse(today) - 86400000).toISOString().slice(0, 10);
  return day === before ? 'yesterday' : day;
}
