// The address of what is shown: #ZONE/TAB/SYSMOD?FILTERS, where ZONE is * for all zones as one list, and SYSMOD may be several with a +
// between them. It can be reloaded, kept and sent.

export const ALL = '*'; // no zone has this name
const TABS = ['errors', 'fixes', 'plan', 'new'];
export const REPORT_OF = { errors: 'errsysmods', fixes: 'missingfix' };

export function addressOf({ zone, tab, sysmod, words }) {
  if (!zone) return '#';
  const parts = [zone, tab ?? 'errors', ...(sysmod ? [sysmod] : [])].map(encodeURIComponent).join('/').replaceAll('%2B', '+');
  return '#' + parts + (words ? '?' + words : '');
}

export function whereIs(hash) {
  const [path, words = ''] = hash.replace(/^#/, '').split(/\?(.*)/s);
  let parts;
  try {
    parts = path.split('/').map(decodeURIComponent);
  } catch (fault) {
    parts = [''];
  }
  const [zone, tab, sysmod = ''] = parts;
  return { zone, tab: TABS.includes(tab) ? tab : 'errors', sysmod: sysmod.toUpperCase(), words };
}
