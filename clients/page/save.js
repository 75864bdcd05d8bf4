// What is shown, as a file or in the clipboard.
import { button, make } from './make.js';

// A field as bureau-client writes it: a text that a spreadsheet would take for a formula gets an apostrophe.
function field(text) {
  const safe = /^[-=+@]/.test(text) ? "'" + text : text;
  return /[",\n]/.test(safe) ? '"' + safe.replaceAll('"', '""') + '"' : safe;
}

// The fields of a line of CSV. An apostrophe in front keeps a text from a spreadsheet, and is no part of it.
export function fieldsOf(line) {
  if (!/["']/.test(line)) return line.split(',');
  const found = [...line.matchAll(/("(?:[^"]|"")*"|[^,]*)(,|$)/g)];
  const last = found.findIndex(([, , end]) => end === '');
  const plain = (field) => (field.startsWith('"') ? field.slice(1, -1).replaceAll('""', '"') : field);
  return found.slice(0, last + 1).map(([, field]) => plain(field).replace(/^'/, ''));
}

export const csvOf = (rows) => rows.map((row) => row.map(field).join(',') + '\n').join('');

function saveAs(name, text, kind) {
  const made = make('a');
  made.href = URL.createObjectURL(new Blob([text], { type: kind + ';charset=utf-8' }));
  made.download = name;
  document.body.append(made);
  made.click();
  made.remove();
  setTimeout(() => URL.revokeObjectURL(made.href), 10000);
}

// Without TLS a browser has no clipboard to write to; then the old way serves.
async function copy(text) {
  if (navigator.clipboard) {
    try {
      await navigator.clipboard.writeText(text);
      return true;
    } catch (fault) {
      // it may not, and the old way may
    }
  }
  const room = make('textarea', 'off');
  room.value = text;
  document.body.append(room);
  room.select();
  const isDone = document.execCommand('copy');
  room.remove();
  return isDone;
}

// Two buttons for each form of a thing: copy it, save it. FORMS are {title, name, kind, text()}. SAY tells what was done.
export function saveButtons(forms, say) {
  const groups = forms.map((form) => make('span', 'pair',
    make('span', 'pair-name', form.title),
    button('Copy', '', async () => {
      const isDone = await copy(form.text());
      say(isDone ? form.title + ' is in the clipboard.' : 'The browser lets nothing be copied.', !isDone);
    }, 'Copy as ' + form.title),
    button('Save', '', () => {
      saveAs(form.name, form.text(), form.kind);
      say('Saved as ' + form.name + '.');
    }, 'Save as ' + form.title)));
  return make('div', 'saves', ...groups);
}
