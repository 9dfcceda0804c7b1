// The view What happened: the picture of a run, its log, and the state and the code at the cursor.
import { newest, Stopped } from './asking.js';
import { ending_in_words } from './codes.js';
import { after_pause, button, fill, labelled, make } from './elements.js';
import { lines_of_log, log_of, without_steps } from './log.js';
import { is_session, length_of, state_at, steps_of } from './moment.js';
import { places_after } from './names.js';
import { picture_file, picture_of, spots_in } from './picture.js';
import { line_at, loaded_programs, programs_of } from './places.js';
import { file_named } from './project.js';
import { ending_of } from './run.js';
import { change, state, watch } from './state.js';
import { state_parts, with_places } from './state_view.js';
import { go_to_step } from './steps.js';
import { save_as } from './text.js';
import { made_of, session_now } from './work.js';

const MOST_STEPS_SHOWN = 50000;
const MOST_ROWS = 200;
const MOST_LINES = 300;
// pixels for each unit of the drawing, where there is room
const SCALE = 1.3;
const drawing_now = newest();
let reading = 0;

/** Reads the run of the session that is there now, from a step on. */
async function read_story(from) {
  const own = ++reading;
  try {
    const session = await session_now();
    if (session === null) throw new Error(state.made.problem.words);
    if (!is_session(session)) throw new Error('This view is of a session; a saved machine and a ring can be run only.');
    if (state.story?.session === session && state.story.from === from) return;
    const { last, closing, is_known, given } = await length_of(session);
    if (!closing) throw new Error(ending_of({ letters: given.text, status: given.status, command: 'run' }).words);
    const to = Math.min(last, from + MOST_STEPS_SHOWN);
    const log = await log_of(session, from, to);
    if (own !== reading) return;
    const is_bare = /^BARE/m.test(session);
    const lines = lines_of_log(log);
    const shown = without_steps(log);
    const rows = is_bare ? null : [...new Set(lines_of_log(shown).map(({ step }) => step))];
    change({ story: { session, from, to, last, closing, is_known, lines, rows, log: shown }, cursor: Math.min(Math.max(state.cursor, from), to) });
    go_to_cursor(state.cursor);
  } catch (error) {
    if (own === reading && !(error instanceof Stopped)) change({ story: { failed: error.message } });
  }
}

/** Puts the cursor on a step, and asks for the state there. */
async function go_to_cursor(step) {
  const { story } = state;
  if (!story?.session) return;
  const cursor = Math.max(story.from, Math.min(step, story.to));
  change({ cursor });
  try {
    const moment = await state_at(story.session, cursor);
    const made = made_of(story.session);
    const loaded = made ? loaded_programs(made, await programs_of(made), moment) : [];
    const place_in = await places_after(story.session, cursor);
    if (state.cursor === cursor && state.story === story) change({ at_cursor: { ...moment, loaded, place_in, cursor } });
  } catch (error) {
    if (!(error instanceof Stopped)) change({ notice: error.message });
  }
}

/** The step of the next row, or of the one before. */
function next_row(by) {
  const { story, cursor } = state;
  const steps = story?.rows ?? [...new Set((story?.lines ?? []).map(({ step }) => step))];
  const found = by > 0 ? steps.find((step) => step > cursor) : steps.findLast((step) => step < cursor);
  if (found !== undefined) go_to_cursor(found);
}

const ON_CURSOR_KEY = { ArrowDown: () => next_row(1), ArrowUp: () => next_row(-1), ArrowRight: () => go_to_cursor(state.cursor + 1),
  ArrowLeft: () => go_to_cursor(state.cursor - 1) };

/** What a key does in this view; true where it does something. */
export function happened_key(event) {
  const act = ON_CURSOR_KEY[event.key];
  if (!act || event.ctrlKey || event.altKey || event.metaKey || !state.story?.session) return false;
  act();
  return true;
}

/** The code at a step: the lines around the one that its instruction comes from. */
function code_at_cursor({ story, cursor, at_cursor }) {
  const line = story.lines.find(({ step, kind }) => step === cursor && kind === 'step');
  if (!line) return make('p', { class: 'help' }, cursor === 0 ? 'Step 0 is the boot.' : 'No instruction of a guest in this step.');
  const place = at_cursor?.cursor === cursor ? line_at(at_cursor.loaded, line.pc) : null;
  const words = line.task >= 5 && at_cursor?.cursor === cursor ? at_cursor.place_in(line.pc) : '';
  const told = make('p', {}, `${line.task ? `task ${line.task}: ` : ''}${line.words} at ${line.pc}${words && `, ${words}`}`
    + `${place ? `, line ${place.line} of ${place.file}` : ''}`);
  if (!place) return told;
  const lines = (file_named(place.file)?.text ?? '').split('\n');
  const first = Math.max(0, place.line - 4);
  return [told, make('pre', { class: 'excerpt' }, lines.slice(first, place.line + 3).map((text, at) =>
    make('div', { class: first + at + 1 === place.line ? 'is-now' : '' },
      `${first + at + 1 === place.line ? '▶' : ' '} ${String(first + at + 1).padStart(4)}  ${text}`)))];
}

/** The lines of the log around a step: `{node, from, to}`, where from and to are the steps of the first and the last line. */
function log_table({ story, cursor }, has_steps) {
  const shown = story.lines.filter(({ kind }) => has_steps || !story.rows || (kind !== 'step' && kind !== 'write'));
  const now = shown.findIndex(({ step }) => step >= cursor);
  const first = Math.max(0, Math.min(shown.length - MOST_LINES, (now < 0 ? shown.length : now) - MOST_LINES / 2));
  const lines = shown.slice(first, first + MOST_LINES);
  const node = make('table', { class: 'words log' }, make('tr', {}, ['step', 'task', 'at', 'what'].map((it) => make('th', { scope: 'col' }, it))),
    lines.map(({ step, task, pc, kind, words }) => make('tr', { 'data-step': String(step) },
      make('td', {}, String(step)), make('td', {}, String(task ?? '–')), make('td', {}, String(pc ?? '–')),
      make('td', { class: 'wide' }, make('strong', {}, kind), ` ${words}`))));
  return { node, from: first === 0 ? 0 : lines[0].step + 1, to: first + MOST_LINES >= shown.length ? Infinity : lines.at(-1).step - 1 };
}

function registers_part(registers) {
  const row = ([name, value]) => make('tr', {}, make('th', { scope: 'row' }, name), make('td', {}, String(value)));
  return make('section', { class: 'part' }, make('h3', {}, 'Registers'),
    make('table', { class: 'words' }, Object.entries(registers).filter(([name]) => name !== 'T').map(row)));
}

/** The view. */
export function happened_view() {
  const drawing = make('div', { class: 'drawing', tabindex: '0', role: 'region', 'aria-label': 'Picture of the run' });
  const said = make('p', { class: 'ending', role: 'status', 'aria-live': 'polite', id: 'happened-said' });
  const log = make('div', { class: 'log-body', id: 'log' });
  const code = make('div');
  const words = make('div', { id: 'happened-state' });
  const pager = make('span', { class: 'bar' });
  const slider = make('input', { type: 'range', min: '0', max: '0', id: 'cursor-slider', 'aria-label': 'Step of the cursor' });
  const number = make('input', { class: 'middle', inputmode: 'numeric', id: 'cursor', 'aria-label': 'Step of the cursor' });
  const all = make('input', { type: 'checkbox', id: 'all-steps', on_change: () => show_log() });
  const node = make('div', { class: 'happened' });
  let places = new Map();
  let first_row = 0;
  let drawn_log = {};
  slider.addEventListener('input', () => go_to_cursor(Number(slider.value)));
  number.addEventListener('change', () => /^[0-9]{1,10}$/.test(number.value.trim()) && go_to_cursor(Number(number.value)));
  const on_pick = (event) => {
    const step = event.target.closest('[data-step]')?.dataset.step;
    if (step) go_to_cursor(Number(step));
  };
  drawing.addEventListener('click', on_pick);
  log.addEventListener('click', on_pick);

  function show_picture() {
    const { story } = state;
    node.classList.toggle('is-bare', Boolean(story?.session && !story.rows));
    if (!story || story.failed) {
      fill(drawing, make('p', { class: story ? 'empty bad' : 'empty' }, story?.failed ? `✕ ${story.failed}` : 'The run is read …'));
      fill(log); drawn_log = {}; fill(code); fill(words); fill(pager); fill(said);
      return;
    }
    slider.min = String(story.from);
    slider.max = String(story.to);
    fill(pager,
      story.from > 0 ? button('◀ earlier steps', () => read_story(Math.max(0, story.from - MOST_STEPS_SHOWN)), { class: 'small' }) : null,
      story.to < story.last ? button('later steps ▶', () => read_story(story.to + 1), { class: 'small' }) : null,
      story.to < story.last || story.from > 0
        ? `steps ${story.from.toLocaleString('en')} to ${story.to.toLocaleString('en')} of ${story.is_known ? '' : 'at most '}${story.last.toLocaleString('en')}` : null,
      story.rows && first_row > 0 ? button('◀ rows before', () => turn_rows(-MOST_ROWS), { class: 'small' }) : null,
      story.rows && first_row + MOST_ROWS < story.rows.length ? button('rows after ▶', () => turn_rows(MOST_ROWS), { class: 'small' }) : null);
    if (story.rows) draw_picture(story);
    else {
      places = new Map();
      fill(drawing);
    }
  }

  async function draw_picture(story) {
    try {
      const drawn = await drawing_now(() => picture_of(story.log,
        { first: first_row, count: MOST_ROWS, width: Math.max(400, drawing.clientWidth / SCALE) }));
      if (!drawn || state.story !== story) return;
      places = spots_in(drawn);
      fill(drawing, drawn);
      mark_cursor();
    } catch (error) {
      if (!(error instanceof Stopped)) fill(drawing, make('p', { class: 'empty bad' }, `✕ ${error.message}`));
    }
  }

  function turn_rows(by) {
    first_row = Math.max(0, first_row + by);
    show_picture();
    go_to_cursor(state.story.rows[first_row]);
  }

  function show_cursor() {
    const { story, cursor } = state;
    if (!story?.session) return;
    slider.value = String(cursor);
    if (document.activeElement !== number) number.value = String(cursor);
    const at = story.rows?.findLastIndex((step) => step <= cursor) ?? -1;
    if (at >= 0 && (at < first_row || at >= first_row + MOST_ROWS)) { first_row = at - (at % MOST_ROWS); show_picture(); }
    mark_cursor();
    show_log();
    show_state();
  }

  /** Puts the mark of the cursor on the row of its step, or after the row before it. */
  function mark_cursor() {
    const { story, cursor } = state;
    const step = story?.rows?.findLast((it) => it <= cursor);
    const mark = drawing.querySelector('.cursor');
    const place = places.get(step);
    if (!mark || !place) return;
    mark.setAttribute('y', step === cursor ? place.top : place.top + place.height);
    mark.setAttribute('height', step === cursor ? place.height : 2);
    const svg = drawing.querySelector('svg');
    const top = place.top * svg.getBoundingClientRect().width / svg.viewBox.baseVal.width;
    if (top < drawing.scrollTop + 20 || top > drawing.scrollTop + drawing.clientHeight - 60) drawing.scrollTop = top - drawing.clientHeight / 2;
  }

  function show_log() {
    const { story, cursor } = state;
    if (!story?.session) return;
    if (drawn_log.story !== story || drawn_log.has_steps !== all.checked || cursor < drawn_log.from || cursor > drawn_log.to) {
      drawn_log = { story, has_steps: all.checked, ...log_table(state, all.checked) };
      fill(log, drawn_log.node);
    }
    for (const row of log.querySelectorAll('.is-now')) row.classList.remove('is-now');
    const rows = [...log.querySelectorAll('[data-step]')];
    const now = rows.filter((row) => Number(row.dataset.step) === cursor);
    for (const row of now) row.classList.add('is-now');
    const row = now[0] ?? rows.find((it) => Number(it.dataset.step) > cursor);
    if (row) log.scrollTop = row.offsetTop - log.clientHeight / 2;
  }

  function show_state() {
    const { story, cursor, at_cursor } = state;
    if (!story?.session) return;
    fill(code, code_at_cursor(state));
    if (at_cursor?.cursor !== cursor) return;
    const told = at_cursor.state;
    const is_end = cursor === story.last && story.is_known;
    const end = `. ${ending_in_words(story.closing)}${story.closing.why === 'steps' ? ` (GO ${steps_of(story.session)})` : ''}`;
    fill(said, make('strong', {}, told.said.replace(/^after/, 'After')), is_end ? end : told.who ? `. ${told.who}` : '');
    fill(words, state_parts(with_places(told, at_cursor.place_in), told.parts.tasks ? ['tasks', 'queues', 'blocks', 'modules'] : []),
      told.parts.tasks ? null : registers_part(told.registers));
  }

  watch(['story'], () => { first_row = 0; show_picture(); show_cursor(); });
  watch(['cursor'], show_cursor);
  watch(['at_cursor'], show_state);
  watch(['view', 'made', 'own'],
    () => { if (state.view === 'happened') read_story(state.story?.session === (state.own ?? state.made?.text) ? state.story.from : 0); });
  addEventListener('resize', after_pause(200, () => { if (state.view === 'happened') { show_picture(); show_cursor(); } }));
  show_picture();
  read_story(0);
  show_cursor();
  const save = async () => { if (state.story?.rows) save_as('run.svg', await picture_file(state.story.log)); };
  const to_steps = () => { change({ view: 'steps', step: state.cursor }); go_to_step(state.cursor); };
  node.append(
    make('section', { class: 'card steer', 'aria-label': 'Cursor' },
      make('div', { class: 'bar controls' }, button('▲ Event', () => next_row(-1), { id: 'event-before', title: 'The event before (↑)' }),
        button('Event ▼', () => next_row(1), { id: 'event-after', class: 'primary', title: 'The next event (↓)' }),
        slider, labelled('step', number), pager, button('To Steps', to_steps, { title: 'The machine after this step' }), button('Save picture', save),
          button('Print', () => window.print())), said),
    make('section', { class: 'card', 'aria-label': 'Picture' }, drawing),
    make('section', { class: 'card', 'aria-label': 'Log' }, make('div', { class: 'bar' }, make('h2', {}, 'Log'), make('span', { class: 'grow' }),
      make('label', { class: 'check each' }, all, ' each instruction')), log,
      make('div', { class: 'parts code-part' }, make('h3', {}, 'Code'), code)),
    make('section', { class: 'card scrolls', 'aria-label': 'State' }, make('div', { class: 'parts' }, words)));
  return node;
}
