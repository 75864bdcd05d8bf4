// A plan as SMP/E control statements, as SMP/E writes them into SMPPUNCH. They stand in columns 1 to 71. Column 1 is
// blank, since `/*` there would end the data of a DD * statement. clients/bureau_client/jobs.py makes the same bytes.

const COLUMNS = 71;

// A comment, in as many lines as it takes. No text here has `*/` in it.
function comment(text) {
  const lines = [];
  let line = '';
  for (const word of text.toUpperCase().split(' ')) {
    if (line && line.length + word.length + 1 > COLUMNS - 7) {
      lines.push(line);
      line = '';
    }
    line += (line ? ' ' : '') + word;
  }
  lines.push(line);
  return lines.map((each) => ' /* ' + each + ' */');
}

// `  UJ92001,UJ92003,..`, as many ids to a line as fit.
function list(ids) {
  const lines = [];
  for (let from = 0; from < ids.length; from += 8) lines.push('    ' + ids.slice(from, from + 8).join(','));
  return lines.map((line, at) => (at + 1 < lines.length ? line + ',' : line));
}

function about(member) {
  const lines = [];
  const held = member.holds.map((hold) => hold.sysmod + ' (' + hold.reason + ')').join(', ');
  if (held) lines.push(...comment(member.id + ' FOR ' + held));
  if (member.needed_by.length > 0) lines.push(...comment(member.id + ' IS NEEDED BY ' + member.needed_by.join(', ')));
  for (const reason of member.system) lines.push(...comment(member.id + ' HAS A SYSTEM HOLD: ' + reason));
  for (const reason of member.user) lines.push(...comment(member.id + ' HAS A USER HOLD: ' + reason));
  return lines;
}

// What SYSTEM and USER holds need, commented out: whoever has done what they ask takes the comment marks away. It is one
// operand with all reasons, as SMP/E's manuals write it.
function bypass(members) {
  const reasons = (kind) => [...new Set(members.flatMap((member) => member[kind]))].sort();
  const lists = [['HOLDSYSTEM', reasons('system')], ['HOLDUSER', reasons('user')]].filter(([, ids]) => ids.length > 0);
  if (lists.length === 0) return [];
  const whole = 'BYPASS(' + lists.map(([name, ids]) => name + '(' + ids.join(',') + ')').join(',') + ')';
  const part = ([name, ids], at) =>
    [name + '(', ...list(ids).map((line) => line.trim()), at + 1 < lists.length ? '),' : ')'];
  const lines = whole.length <= COLUMNS - 7 ? [whole] : ['BYPASS(', ...lists.flatMap(part), ')'];
  return lines.map((line) => ' /* ' + line + ' */');
}

function leftOver(plan) {
  const none = plan.unresolved.map((hold) => hold.sysmod + ' (' + hold.reason + ')');
  const held = plan.held.map((hold) => hold.sysmod + ' (' + hold.reason + ')');
  return [
    ...(plan.notes ?? []).flatMap(comment),
    ...(none.length > 0 ? comment('NOTHING RESOLVES ' + none.join(', ')) : []),
    ...(held.length > 0 ? comment('ALL RESOLVERS ARE HELD OF ' + held.join(', ')) : []),
  ];
}

// The job for a plan. TITLE says what it is for and how old it is. NOTES of a plan are sentences that the job tells.
export function jobOf(plan, title) {
  const notReceived = plan.members.filter((member) => !member.received).map((member) => member.id);
  const lines = [
    ...comment(title),
    ...comment('made by bureau, and not tried on a real z/OS. Read it before you run it.'),
    ...leftOver(plan),
  ];
  if (plan.members.length === 0) lines.push(...comment('nothing can be installed'));
  if (notReceived.length > 0) {
    lines.push('', ' SET BOUNDARY(GLOBAL).', ' RECEIVE SYSMODS SELECT(', ...list(notReceived), '    ).');
  }
  if (plan.members.length > 0) {
    lines.push('', ...plan.members.flatMap(about), '', ' SET BOUNDARY(' + plan.zone + ').', ' APPLY CHECK SELECT(');
    lines.push(...list(plan.members.map((member) => member.id)), '    )', ...bypass(plan.members), ' .');
  }
  return lines.join('\n') + '\n';
}
