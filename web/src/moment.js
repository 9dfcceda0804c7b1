// The machine after so many steps, as the programs tell it: by the run of a shorter session, by its state, and by lines of the debugger.
import { ask } from './asking.js';
import { closing_of } from './codes.js';

const MOST_TAKEN = 10000000;
const MOST_STOPS = 65536;

/** A session whose run has at most so many steps. */
export function with_steps(session, steps) {
  return session.replace(/^GO [0-9]+/m, `GO ${steps}`);
}

/** How many steps a session asks for. */
export function steps_of(session) {
  return Number(/^GO ([0-9]+)/m.exec(session)?.[1] ?? 0);
}

/** Whether a text is a session, and not a saved machine or a ring. */
export function is_session(text) {
  return /^TRIPOS [12]\r?\n/.test(text);
}

/**
 * How many steps the run of a session has: `{last, closing, is_known, given}`. Of a long run only the first ten million are taken; where it goes on
 * after these, `last` is the most that there may be, and `is_known` says so. `closing` is null where there is no run, and `given` says why.
 */
export async function length_of(session) {
  const most = steps_of(session);
  const given = await ask('tripos', ['run'], with_steps(session, Math.min(most, MOST_TAKEN)), 'the session runs');
  const closing = closing_of(given.text);
  const is_known = !closing || closing.why !== 'steps' || closing.steps === most;
  return { last: is_known ? closing?.steps ?? 0 : most, closing, is_known, given };
}

/** What `state` writes, read: `{said, registers, next, who, parts}`, where parts are `{tasks, queues, blocks, modules}`, each a list of `{line, more}`. */
function read_state(text) {
  const state = { said: '', registers: null, next: null, who: '', parts: {} };
  let part = null;
  for (const line of text.split('\n').filter(Boolean)) {
    if (/^(tasks|queues|blocks|modules)$/.test(line)) { part = state.parts[line] = []; continue; }
    if (part) {
      if (line.startsWith('  ') && part.length > 0) part[part.length - 1].more.push(line.trim());
      else part.push({ line, more: [] });
    } else if (line.startsWith('after ')) state.said = line;
    else if (line.startsWith('REGS ')) state.registers = read_registers(line);
    else if (/^[0-9]+ /.test(line)) state.next = line.replace(/^[0-9]+ /, '');
    // who runs, or that nobody does, and then which tasks wait for ever
    else state.who = [state.who, line].filter(Boolean).join('; ');
  }
  return state;
}

/** The line of the registers as an object of numbers. */
function read_registers(line) {
  return Object.fromEntries(line.slice(5).split(' ').map((it) => it.split('=')).map(([name, value]) => [name, Number(value)]));
}

/** What the programs say of a session after so many steps: the console, how it ended, and the state. */
export async function state_at(session, step) {
  const cut = with_steps(session, step);
  const [run, told] = await Promise.all([ask('tripos', ['run'], cut, 'the session runs up to this step'),
    ask('tripos_show', ['state'], cut, 'the state is looked at')]);
  const closing = closing_of(run.text);
  if (run.is_cut) throw new Error('Up to this step more than 64 MB are written; only runs that write less can be looked at here.');
  if (!closing) throw new Error(run.text.trim());
  return { step: closing.steps, why: closing.why, closing, console: run.text.slice(0, run.text.length - closing.length), state: read_state(told.text),
    told: told.text };
}

/** The answer of the debugger to lines, without what the program wrote before; the console has so many bytes. */
async function debugged(session, step, length, lines) {
  const given = await ask('tripos', ['debug'], `${session}${[`STEP ${step}`, ...lines, ''].join('\n')}`, 'the debugger goes to this step');
  const closing = closing_of(given.text);
  if (!closing) throw new Error(given.text.trim());
  // a line end, and then where it is or that it has stopped
  return given.text.slice(length + 1, given.text.length - closing.length).split('\n').slice(1);
}

/** `count` lines of the listing from a byte address on: `[{address, text}]`. */
export async function listing_at(session, moment, address, count) {
  const lines = await debugged(session, moment.step, moment.console.length, [`DIS ${address} ${count}`]);
  return lines.map((line) => /^([0-9]+) (.*)$/.exec(line)).filter(Boolean).map(([, at, text]) => ({ address: Number(at), text }));
}

/** Words of the store from an address on, as a Map from addresses to numbers. */
export async function words_at(session, moment, address, count) {
  const lines = await debugged(session, moment.step, moment.console.length, [`MEM ${address} ${count}`]);
  return new Map(lines.map((line) => /^([0-9]+) ([0-9a-f]{8})$/.exec(line)).filter(Boolean).map(([, at, word]) => [Number(at), parseInt(word, 16)]));
}

/**
 * The step to which the machine comes when it goes on from a step up to one of these byte addresses, or to its end: `{step, registers}`.
 */
export async function go_on_from(session, step, addresses) {
  const lines = [`STEP ${step}`, ...addresses.slice(0, 16).map((it) => `BP ${it}`), 'CONT', 'REGS', ''];
  const given = await ask('tripos', ['debug'], session + lines.join('\n'), 'the debugger goes on');
  const closing = closing_of(given.text);
  if (!closing) throw new Error(given.text.trim());
  const last = given.text.slice(0, given.text.length - closing.length).trimEnd().split('\n').pop();
  return { step: closing.steps, why: closing.why, registers: read_registers(last) };
}

/**
 * The last step before `step` at which the machine, going on from its beginning, stops at one of these byte addresses; null where it stops at
 * none, or more than 65,536 times. It is searched for by how often the debugger goes on: after more times it is never at an earlier step.
 */
export async function last_stop_before(session, step, addresses) {
  const begin = ['STEP 0', ...addresses.slice(0, 16).map((it) => `BP ${it}`)];
  const step_after = async (times) => {
    const lines = [...begin, ...Array(times).fill('CONT'), ''];
    const given = await ask('tripos', ['debug'], session + lines.join('\n'), 'the debugger looks for the breakpoint before');
    const closing = closing_of(given.text);
    if (!closing) throw new Error(given.text.trim());
    return closing.steps;
  };
  let [low, high] = [0, 1];
  while (await step_after(high) < step) {
    [low, high] = [high, 2 * high];
    if (high > MOST_STOPS) return null;
  }
  while (high - low > 1) {
    const middle = Math.floor((low + high) / 2);
    if (await step_after(middle) < step) low = middle; else high = middle;
  }
  return low === 0 ? null : step_after(low);
}
