// A zone's plan, from the desk's JSON, and as rows for a spreadsheet. Nothing here touches the page.
import { NoReport, json } from './report.js';
import { counted, several } from './words.js';

const isHold = (hold) => typeof hold?.sysmod === 'string' && typeof hold.reason === 'string';
const areTexts = (list) => Array.isArray(list) && list.every((text) => typeof text === 'string');

function isMember(member) {
  return typeof member?.id === 'string' && Number.isInteger(member.step) && typeof member.received === 'boolean' &&
    ['fmids', 'needed_by', 'system', 'user'].every((name) => areTexts(member[name])) &&
    Array.isArray(member.holds) && member.holds.every(isHold);
}

const isHeld = (held) => isHold(held) && typeof held.resolver === 'string';
const isBlocked = (blocked) => typeof blocked?.sysmod === 'string' && typeof blocked.need === 'string' &&
  (blocked.giver === null || typeof blocked.giver === 'string') && typeof blocked.published === 'boolean';
const areAll = (list, is) => Array.isArray(list) && list.every(is);

// The rows of needs that are in a SYSMOD's way: its own, that of what would give it, and so on, each once.
function rowsOfNeeds(sysmod, blocked) {
  const rows = new Map();
  for (let row = blocked.get(sysmod); row && !rows.has(row.sysmod); row = blocked.get(row.giver)) rows.set(row.sysmod, row);
  return [...rows.values()];
}

// The plan of a report: members in the order of installation; the holds that nothing resolves; and those whose
// resolvers are all held, with the needs that are in the way.
export function planOf(text, zone, name) {
  const plan = json(text);
  const isPlan = plan?.zone === zone && plan.report === name && areAll(plan.members, isMember) &&
    areAll(plan.unresolved, isHold) && areAll(plan.held, isHeld) && areAll(plan.blocked, isBlocked);
  if (!isPlan) throw new NoReport();
  const blocked = new Map(plan.blocked.map((row) => [row.sysmod, row]));
  const held = plan.held.map((hold) => ({ ...hold, blocked: rowsOfNeeds(hold.resolver, blocked) }));
  return { zone, members: plan.members, unresolved: plan.unresolved, held, blocked: plan.blocked, json: text };
}

// How much members are, in a sentence, or NONE.
export function summaryOf(members, none) {
  if (members.length === 0) return none;
  const received = members.filter((member) => member.received).length;
  const heeded = members.filter((member) => member.system.length + member.user.length > 0).length;
  return several(members.length, 'SYSMOD') + ' to install, ' + counted(received) + ' of them received, ' + counted(heeded) + ' with holds to heed.';
}

export const holdName = (hold) => hold.sysmod + ' (' + hold.reason + ')';

const named = (holds) => holds.map((hold) => hold.sysmod + ' ' + hold.reason).join(' ');

// The plan as rows, the heading first: the members, and then what is left over.
export function planRows(plan) {
  const heading = ['STEP', 'SYSMOD', 'RECEIVED', 'FMID', 'FOR', 'NEEDED BY', 'SYSTEM HOLDS', 'USER HOLDS', 'BLOCKED BY'];
  const members = plan.members.map((member) => [
    String(member.step), member.id, member.received ? 'YES' : 'NO', member.fmids.join(' '), named(member.holds),
    member.needed_by.join(' '), member.system.join(' '), member.user.join(' '), '',
  ]);
  const held = plan.held.map((hold) => ['HELD', hold.resolver, '', '', named([hold]), '', '', '', hold.blocked.map((row) => row.need).join(' ')]);
  const none = plan.unresolved.map((hold) => ['NONE', '', '', '', named([hold]), '', '', '', '']);
  return [heading, ...members, ...held, ...none];
}
