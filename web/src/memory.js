// What the browser keeps of the user's work, and a run as the address of the page.
import { asked_of } from './many_runs.js';
import { is_project } from './project.js';
import { change, state, watch } from './state.js';
import { after_pause } from './elements.js';

const KEPT = 'kijolpe.work';
const BEFORE = 'kijolpe.before';

/** The most letters of the part of an address after its #. */
export const LONGEST_ADDRESS = 60000;

/** The work as plain data, and nothing else of the state. */
export function work_now() {
  const { project, own, command, many } = state;
  return { project, own, command, many };
}

/** The work that a text of JSON has, or null where it is none. */
export function work_of_json(text) {
  try {
    const { project, own, command, many } = JSON.parse(text);
    if (!is_project(project) || (own !== null && typeof own !== 'string')) return null;
    return { project, own, command: ['run', 'dump', 'trace', 'outcomes'].includes(command) ? command : 'run', many: asked_of(many) };
  } catch {
    return null;
  }
}

function read_kept(name) {
  try {
    return localStorage.getItem(name);
  } catch {
    return null;
  }
}

function keep(name, text) {
  try {
    localStorage.setItem(name, text);
  } catch {
    change({ notice: 'The browser keeps nothing for this page, so save your work to files.' });
  }
}

/** The work that the browser has kept, or null. */
export function kept_work() {
  return work_of_json(read_kept(KEPT) ?? '');
}

/** The work that was there before another one was opened, or null. */
export function earlier_work() {
  return work_of_json(read_kept(BEFORE) ?? '');
}

/** Keeps the work of now as the earlier one. */
export function keep_as_earlier(work = work_now()) {
  keep(BEFORE, JSON.stringify(work));
}

/** Takes away all that the browser has kept. */
export function forget_all() {
  try {
    for (const name of [KEPT, BEFORE, 'kijolpe.scheme', 'kijolpe.seen']) localStorage.removeItem(name);
  } catch {
    // then nothing was kept
  }
}

/** A small setting that the browser keeps. */
export function kept_setting(name) {
  return read_kept(`kijolpe.${name}`);
}

export function keep_setting(name, value) {
  keep(`kijolpe.${name}`, value);
}

async function piped(bytes, stream) {
  return new Uint8Array(await new Response(new Blob([bytes]).stream().pipeThrough(stream)).arrayBuffer());
}

/** The part of the address after its #, which is the whole work. */
export async function address_of_work(work = work_now()) {
  const packed = await piped(new TextEncoder().encode(JSON.stringify(work)), new CompressionStream('deflate-raw'));
  let letters = '';
  for (const byte of packed) letters += String.fromCharCode(byte);
  return `run=${btoa(letters).replace(/\+/g, '-').replace(/\//g, '_').replace(/=+$/, '')}`;
}

/** The work of such a part of an address, or null where it has none. */
export async function work_of_address(part) {
  if (!part.startsWith('run=')) return null;
  try {
    const letters = atob(part.slice(4).replace(/-/g, '+').replace(/_/g, '/'));
    const bytes = Uint8Array.from(letters, (letter) => letter.charCodeAt(0));
    return work_of_json(new TextDecoder().decode(await piped(bytes, new DecompressionStream('deflate-raw'))));
  } catch {
    return null;
  }
}

let address_set = '';

/** Whether the address has what the page itself has put there. */
export function is_own_address() {
  return location.hash === address_set;
}

async function show_in_address() {
  try {
    const part = await address_of_work();
    address_set = part.length <= LONGEST_ADDRESS ? `#${part}` : '';
  } catch {
    // a browser that cannot pack it
    address_set = '';
  }
  history.replaceState(null, '', address_set || location.pathname + location.search);
}

/** From now on the work is kept, and is in the address. */
export function begin_keeping() {
  const keep_now = after_pause(400, () => {
    keep(KEPT, JSON.stringify(work_now()));
    show_in_address();
  });
  watch(['project', 'own', 'command', 'many'], keep_now);
  keep_now();
}
