// What the codes of the programs mean, by the words of bin/codes, and how a run ended.
import { files } from './files.js';

const meanings = new Map();

/** Reads the words; comes before all else. */
export async function read_codes() {
  for (const line of ((await files()).get('bin/codes') ?? '').split('\n')) {
    const [kind, code, words] = line.split('|');
    if (words) meanings.set(`${kind} ${code}`, words.replace(/; address named: .*/, ''));
  }
}

/** What a code means, of a kind of bin/codes. */
export function meaning(kind, code) {
  return meanings.get(`${kind} ${code}`) ?? `code ${code}`;
}

/** The line and the code of `* refused: line L code C` and `* no boot: line L code C`, or null. */
export function refusal_in(text) {
  const found = /^\* (refused|no boot): line ([0-9]+) code ([0-9]+)\n?$/.exec(text);
  return found && { is_boot: found[1] === 'no boot', line: Number(found[2]), code: found[3] };
}

/**
 * The closing line of what a run has written, which the words of the store may follow: `{length, steps, why}`, where length counts all from its
 * first line end on; or null.
 */
export function closing_of(text) {
  const at = text.lastIndexOf('\n* stopped after ');
  const found = at < 0 ? null : /^\n\* stopped after ([0-9]+) steps: ([^\n]*)\n(?:$|[0-9]+ [0-9a-f]{8}\n)/.exec(text.slice(at));
  return found && { length: text.length - at, steps: Number(found[1]), why: found[2] };
}

/** How a run ended, in words. */
export function ending_in_words({ steps, why }) {
  const after = `after ${steps.toLocaleString('en')} ${steps === 1 ? 'step' : 'steps'}`;
  const fault = /^fault ([0-9]+) at ([0-9]+) in task ([0-9]+)$/.exec(why);
  if (fault) {
    const kind = ['1', '2', '5', '7', '8'].includes(fault[1]) ? 'byte' : 'word';
    return `Stopped ${after} by fault ${fault[1]} at ${kind} ${fault[2]}${fault[3] === '0' ? '' : ` in task ${fault[3]}`}: ${meaning('fault', fault[1])}.`;
  }
  if (why === 'steps') return `All ${counted_steps(steps)} of the session are used up; the machine could go on.`;
  if (why === 'finish') return `The shell's command FINISH ended the run ${after}.`;
  if (/^quit /.test(why)) return `The program ended the run ${after}, by quit(${why.slice(5)}).`;
  return `The run ended ${after}: ${why}.`;
}

function counted_steps(steps) {
  return steps === 1 ? 'one step' : `${steps.toLocaleString('en')} steps`;
}
