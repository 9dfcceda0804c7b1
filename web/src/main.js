// The page: its state, its views, and its keys.
import { prepare } from './answer.js';
import { stop_all } from './asking.js';
import { read_codes } from './codes.js';
import { ask_user, show_sheet } from './dialogs.js';
import { fill, make } from './elements.js';
import { example_named } from './examples.js';
import { files } from './files.js';
import { happened_key, happened_view } from './happened.js';
import { page_foot, page_head, page_intro, page_says } from './frame.js';
import { read_instructions } from './instructions.js';
import { learn_view } from './learn.js';
import { begin_keeping, forget_all, is_own_address, keep_as_earlier, kept_work, work_of_address } from './memory.js';
import { missing } from './program.js';
import { open_project } from './project.js';
import { programs_view } from './programs.js';
import { run_now } from './run.js';
import { saved_view } from './saved.js';
import { steps_key, steps_view } from './steps.js';
import { change, state, watch } from './state.js';
import { terminal_view } from './terminal.js';
import { begin_work } from './work.js';

const VIEWS = [['programs', 'Programs', programs_view], ['steps', 'Steps', steps_view], ['happened', 'What happened', happened_view],
  ['terminal', 'Terminal', terminal_view],
  ['saved', 'Saved machines', saved_view], ['learn', 'Learn', learn_view]];

const KEY_SHEET = [
  ['Everywhere', [['Ctrl+Enter', 'runs the session'], ['Esc', 'stops what runs'], ['1 to 6, or Alt+1 to Alt+6', 'the views'], ['?', 'this sheet']]],
  ['In the editor', [['Tab', 'blanks up to the next column of 8'], ['Esc, then Tab', 'leaves the editor'], ['F9', 'a breakpoint at the line'],
    ['Ctrl+Z', 'takes back what was typed']]],
  ['At the tabs of files', [['← →', 'the other files'], ['Alt+← Alt+→', 'moves the file'], ['double click', 'gives it another name']]],
  ['In Steps', [['→ ←', 'a step forth, a step back'], ['O', 'over a call of a function'], ['C', 'on to the next breakpoint'], ['B', 'back to the breakpoint before'], ['L', 'up to a line'],
    ['Page Down, Page Up', '100 steps'], ['Home End', 'to the beginning, to the end']]],
  ['In What happened', [['↓ ↑', 'the next event, the one before'], ['→ ←', 'a step forth, a step back']]],
  ['In Terminal', [['Tab', 'leaves the screen'], ['Ctrl+B, C, D, E', 'flags 2 to 5 of the program for which the shell waits']]],
];

function show_keys() {
  return show_sheet('Keys', make('div', { class: 'sheet' }, KEY_SHEET.map(([place, keys]) => make('section', {}, make('h3', {}, place),
    make('table', { class: 'keys' },
      keys.map(([key, what]) => make('tr', {}, make('th', { scope: 'row' }, make('kbd', {}, key)), make('td', {}, what))))))));
}

async function forget() {
  if (!await ask_user('Forget your work?', 'All that this browser has kept of your work is taken away, and the page begins anew.',
    [['Keep it', false], ['Forget it', true]])) return;
  forget_all();
  history.replaceState(null, '', location.pathname + location.search);
  location.reload();
}

function on_key(event) {
  const is_typing = event.target.closest?.('input, textarea, select, [contenteditable]');
  if (document.querySelector('dialog[open]')) return;
  if (event.key === 'Enter' && (event.ctrlKey || event.metaKey)) { event.preventDefault(); run_now(); }
  else if (event.key === 'Escape' && state.busy) stop_all();
  else if (/^[1-9]$/.test(event.key) && (event.altKey || (!is_typing && !event.ctrlKey && !event.metaKey))
    && VIEWS[Number(event.key) - 1]) { event.preventDefault(); change({ view: VIEWS[Number(event.key) - 1][0] }); }
  else if (!is_typing && state.view === 'steps' && steps_key(event)) event.preventDefault();
  else if (!is_typing && state.view === 'happened' && happened_key(event)) event.preventDefault();
  else if (event.key === '?' && !is_typing) { event.preventDefault(); show_keys(); }
}

async function open_work() {
  const page = /^#page=(.+)$/.exec(decodeURIComponent(location.hash))?.[1];
  if (page) change({ view: 'learn', page });
  const linked = await work_of_address(location.hash.slice(1));
  const work = linked ?? kept_work() ?? example_named(await files(), 'packets');
  if (!linked && location.hash.startsWith('#run=')) change({ notice: 'The address has no run that can be read; it may have been cut. What is shown is your own work.' });
  const before = kept_work();
  if (linked && before && JSON.stringify(before) !== JSON.stringify(linked)) keep_as_earlier(before);
  open_project(work.project, { ...work, view: state.view });
}

async function begin() {
  const lack = missing();
  if (lack) { fill(document.getElementById('page'), make('main', { class: 'lack' }, make('h1', {}, 'Kijolpe'), make('p', {}, lack))); return; }
  prepare();
  await read_codes();
  await read_instructions();
  await open_work();
  const main = make('main', { tabindex: '-1' });
  const made = new Map();
  const show_view = () => {
    const [id, , view] = VIEWS.find(([own]) => own === state.view) ?? VIEWS[0];
    if (!made.has(id)) made.set(id, view());
    fill(main, made.get(id));
    document.body.dataset.view = id;
    // what had the focus may be gone
    if (document.activeElement === document.body) main.focus({ preventScroll: true });
  };
  fill(document.getElementById('page'), page_head(VIEWS.map(([id, text]) => [id, text]), show_keys), page_says(),
    page_intro((page) => change({ view: 'learn', page })), main, page_foot(forget));
  watch(['view'], show_view);
  show_view();
  begin_work();
  begin_keeping();
  document.addEventListener('keydown', on_key);
  const on_fault = (words) => change({ notice: `Something in the page went wrong (${words}). Your work is kept; loading the page again may help.` });
  addEventListener('error', (event) => on_fault(event.message));
  addEventListener('unhandledrejection', (event) => on_fault(event.reason?.message ?? event.reason));
  addEventListener('hashchange', async () => {
    if (is_own_address()) return;
    await open_work();
    run_now();
  });
  document.body.dataset.ready = 'yes';
  if (!state.run) run_now();
}

await begin();
