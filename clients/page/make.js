// Elements, made by hand. All texts go in as texts, so nothing that is shown is ever taken for HTML.

export function make(tag, className, ...children) {
  const element = document.createElement(tag);
  if (className) element.className = className;
  element.append(...children);
  return element;
}

// A button. LABEL is what a screen reader says, where the text alone does not tell.
export function button(text, className, action, label) {
  const made = make('button', className, text);
  made.type = 'button';
  if (label) made.setAttribute('aria-label', label);
  made.addEventListener('click', action);
  return made;
}

// A button that lets one choose a file. TAKE gets its text.
export function fileButton(text, take, label) {
  const input = make('input', 'off');
  Object.assign(input, { type: 'file', tabIndex: -1, accept: '.csv,text/csv' });
  input.setAttribute('aria-hidden', 'true');
  input.addEventListener('change', async () => {
    const [file] = input.files;
    if (file) take(await file.text());
    input.value = ''; // so that the same file may be chosen again
  });
  return make('span', '', button(text, '', () => input.click(), label), input);
}

export function link(text, className, address, label) {
  const made = make('a', className, text);
  made.href = address;
  if (label) made.setAttribute('aria-label', label);
  return made;
}

// What stands where there is no row: a sign, what that means, and where to go on.
export function emptyState(sign, title, words, ...links) {
  const mark = make('span', 'empty-sign ' + (sign === '✓' ? 'good' : ''), sign);
  mark.setAttribute('aria-hidden', 'true');
  return make('div', 'nothing', mark, make('p', 'empty-title', title), ...(words ? [make('p', 'soft', words)] : []), ...links);
}

// A small line over numbers, one for each day: [day, number]. WHAT they count is told.
export function lineOver(days, what = 'Holds') {
  const most = Math.max(1, ...days.map(([, number]) => number));
  const points = days.map(([, number], at) => [2 + (56 * at) / (days.length - 1), 14 - (12 * number) / most]);
  const of = (tag, words) => {
    const element = document.createElementNS('http://www.w3.org/2000/svg', tag);
    for (const [name, text] of Object.entries(words)) element.setAttribute(name, text);
    return element;
  };
  const made = of('svg', { class: 'trend', viewBox: '0 0 60 16', width: 60, height: 16, role: 'img' });
  const title = of('title', {});
  const told = [days[0], days.at(-1)].map(([day, number]) => number + ' on ' + day);
  title.textContent = what + ': ' + told.join(', ');
  const [x, y] = points.at(-1);
  made.append(title, of('polyline', { points: points.map((point) => point.map((each) => each.toFixed(1)).join(',')).join(' ') }), of('circle', { cx: x, cy: y, r: 2 }));
  return made;
}

// A SYSMOD of a chain, with what is to be said of it.
export function boxFor(id, className, words, ...more) {
  return make('li', 'box ' + className, make('strong', 'id', id), words ? make('span', 'soft', words) : '', ...more);
}

// The SYSTEM or USER holds of a SYSMOD, which somebody has to heed.
export const reasonsOf = (kind, list) => list.map((reason) => make('span', 'heed', kind + ' hold: ' + reason));

// Waits until what is there now was painted.
export const painted = () => new Promise((done) => requestAnimationFrame(() => setTimeout(done)));

export const at = (id) => document.getElementById(id);

const STATUS_WORDS = {
  GOOD: 'can be installed, together with its chain',
  HELD: 'can’t be installed now: something that it needs is missing',
  LACK: 'not published, or for a function that the zone lacks',
  none: 'no published SYSMOD resolves the hold',
};

export function statusBadge(status) {
  const shown = make('span', 'badge status-' + status.toLowerCase(), status);
  shown.title = STATUS_WORDS[status] ?? '';
  return shown;
}

// Of a hold that nothing published resolves: the fix that HOLDDATA names, or that it names none.
export function orderBadge(fix) {
  const [first, ...more] = fix.split(' ').filter(Boolean);
  const text = first ? 'order ' + first + (more.length > 0 ? ' +' + more.length : '') : 'nothing known';
  const shown = make('span', 'badge ' + (first ? 'status-order' : 'status-none'), text);
  shown.title = first ? 'HOLDDATA names its fix, which is not published here: ' + fix : STATUS_WORDS.none + ', and HOLDDATA names no fix';
  return shown;
}

export const receivedMark = (isReceived) => make('span', isReceived ? 'yes' : 'soft', isReceived ? 'received' : 'no');

export function classBadge(name) {
  const known = name === 'HIPER' || name === 'PE';
  return make('span', 'badge class-' + (known ? name.toLowerCase() : 'other'), name || '–');
}
