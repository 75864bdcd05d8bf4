// Numbers and times, as the page writes them.

const NUMBERS = new Intl.NumberFormat('en-US'); // made once, since that takes milliseconds

// 12345 as 12,345.
export const counted = (number) => NUMBERS.format(number);

// `1 hold`, `2 holds`.
export const several = (number, word) => counted(number) + ' ' + word + (number === 1 ? '' : 's');

// The first of some texts: `A, B and 3 more`.
export const fewOf = (texts, most) => texts.slice(0, most).join(', ') + (texts.length > most ? ' and ' + (texts.length - most) + ' more' : '');

// The sums over all zones, day by day, from the day on which each of them has counts. DAYS are of each zone [day, counts] of its days, the
// earliest first. A zone without counts of a day has those of its last day before.
export function sumsByDay(days, name) {
  const all = [...new Set(days.flatMap((zone) => zone.map(([day]) => day)))].sort();
  const since = days.map((zone) => zone[0][0]).sort().at(-1);
  const at = (zone, day) => zone.filter(([each]) => each <= day).at(-1)[1][name];
  return all.filter((day) => day >= since).map((day) => [day, days.reduce((sum, zone) => sum + at(zone, day), 0)]);
}

// The day of a time, as this machine has it.
export const dayOf = (date) => timeOf(date).slice(0, 10);

// Year, month, day and time, as this machine has them.
export const timeOf = (date) => date.toLocaleString('sv-SE');
