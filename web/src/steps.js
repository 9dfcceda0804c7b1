// The view Steps: the machine after any step, forth and back.
import { Stopped } from './asking.js';
import { ending_in_words } from './codes.js';
import { ask_for_text } from './dialogs.js';
import { button, fill, labelled, make } from './elements.js';
import { effect_of } from './instructions.js';
import { go_on_from, is_session, last_stop_before, length_of, listing_at, state_at, steps_of, with_steps, words_at } from './moment.js';
import { places_after } from './names.js';
import { addresses_of, line_at, loaded_programs, programs_of } from './places.js';
import { is_assembly } from './project.js';
import { ending_of } from './run.js';
import { screen_text } from './screen.js';
import { source_view } from './source_view.js';
import { change, state, watch } from './state.js';
import { state_parts, with_places } from './state_view.js';
import { counted, signed_word } from './text.js';
import { typed_words } from './typed_words.js';
import { made_of, session_now } from './work.js';

const LISTED = 12;
const FRAMES_BACK = 2000;
let going = 0;

/** Where a program is, from what the form has made; nothing where the user's own text runs. */
async function places_at(session, moment) {
  const made = made_of(session);
  return made ? loaded_programs(made, await programs_of(made), moment) : [];
}

/** The whole of a run: its session, and how many steps it has. */
async function whole_run() {
  const session = await session_now();
  if (session === null) throw new Error(state.made.problem.words);
  if (!is_session(session)) throw new Error('Steps are of a session; a saved machine and a ring can be run only.');
  if (state.moment?.session === session) return { session, last: state.moment.last, is_known: state.moment.is_known };
  const { last, closing, is_known, given } = await length_of(session);
  if (!closing) throw new Error(ending_of({ letters: given.text, status: given.status, command: 'run' }).words);
  return { session, last, is_known };
}

/** Goes to a step of the session that is there now. */
export async function go_to_step(wanted) {
  const own = ++going;
  change({ step: Math.max(0, wanted) });
  try {
    const { session, last, is_known } = await whole_run();
    const step = Math.min(state.step, last);
    const moment = await state_at(session, step);
    const loaded = await places_at(session, moment);
    const place_in = await places_after(session, moment.step);
    const { P, PC } = moment.state.registers;
    const is_going = PC !== 0;
    const listing = is_going ? await listing_at(session, moment, PC, LISTED) : [];
    const from = Math.max(0, P - FRAMES_BACK);
    const frames = P !== 0 ? await words_at(session, moment, from, P - from + 16) : new Map();
    const place = state.words_from ?? { text: 'G', count: 12 };
    const words = await words_at(session, moment, address_in(place.text, moment.state.registers) ?? 0, place.count);
    if (own !== going) return;
    const before = state.moment?.session === session ? state.moment : null;
    change({ step: moment.step, moment: { ...moment, session, last, is_known, loaded, place_in, listing, frames, words, before: before
      && { registers: before.state.registers, words: before.words, frames: before.frames } } });
  } catch (error) {
    if (own === going && !(error instanceof Stopped)) change({ moment: { failed: error.message } });
  }
}

/** The address that a text means: a number, or P or G and a number more; null where it is none. */
function address_in(text, registers) {
  const found = /^(?:([PG])(?:\+([0-9]+))?|([0-9]{1,9}))$/.exec(text.trim());
  if (!found) return null;
  return found[1] ? registers[found[1]] + Number(found[2] ?? 0) : Number(found[3]);
}

/** Goes on to the next breakpoint, or to one more line. */
async function go_on(also = []) {
  const { moment } = state;
  if (!moment?.session) return;
  const addresses = [...new Set([...state.breaks.flatMap(({ file, line }) => addresses_of(moment.loaded, file, line)), ...also])];
  if (addresses.length === 0) change({ notice: 'There is no breakpoint in a program that is loaded, so the run goes on to its end. A click at a line number sets one.' });
  try {
    const { step } = await go_on_from(moment.session, moment.step, addresses);
    await go_to_step(step);
  } catch (error) {
    if (!(error instanceof Stopped)) change({ notice: error.message });
  }
}

/** Goes back to where a breakpoint was met last. */
async function go_back() {
  const { moment } = state;
  if (!moment?.session) return;
  const addresses = [...new Set(state.breaks.flatMap(({ file, line }) => addresses_of(moment.loaded, file, line)))];
  if (addresses.length === 0) {
    change({ notice: 'There is no breakpoint in a program that is loaded. A click at a line number sets one.' });
    return;
  }
  try {
    const step = await last_stop_before(with_steps(moment.session, moment.step), moment.step, addresses);
    if (step === null) change({ notice: 'No breakpoint was met before this step.' });
    else await go_to_step(step);
  } catch (error) {
    if (!(error instanceof Stopped)) change({ notice: error.message });
  }
}

/** Goes on up to a line of the file that is shown, or to a breakpoint before it. */
async function go_to_line(line) {
  const { moment } = state;
  const addresses = moment?.session ? addresses_of(moment.loaded, state.open_source, line) : [];
  if (addresses.length > 0) await go_on(addresses);
  else change({ notice: `No program that is loaded has bytes of line ${line} of ${state.open_source} or after it.` });
}

async function ask_for_line() {
  const line = await ask_for_text('Go on up to a line', `Its number in ${state.open_source}`, '',
    (given) => (/^[1-9][0-9]{0,5}$/.test(given) ? '' : 'A line has a number, counted from 1.'));
  if (line) await go_to_line(Number(line));
}

/** A step; where the next instruction calls a function, all steps up to where that has returned. */
async function step_over() {
  const { moment } = state;
  if (!moment?.session) return;
  const [now, next] = moment.listing;
  if (!now || !next || !/^K/.test(now.text)) { go_to_step(moment.step + 1); return; }
  try {
    const { P, T } = moment.state.registers;
    let at = { step: moment.step };
    do at = await go_on_from(moment.session, at.step, [next.address]);
    while (at.step < moment.last && (at.registers.P !== P || at.registers.T !== T));
    await go_to_step(at.step);
  } catch (error) {
    if (!(error instanceof Stopped)) change({ notice: error.message });
  }
}

function step_back() { go_to_step(state.step - 1); }
function step_forth() { go_to_step(state.step + 1); }

const REGISTERS = [['A', 'works'], ['B', 'the A before'], ['C', 'a byte or count'], ['P', 'the frame'], ['G', 'the globals'], ['PC', 'the next byte'],
  ['T', 'the task']];

function registers_table({ state: told, before }) {
  return make('table', { class: 'words registers' }, REGISTERS.map(([name, what]) => {
    const value = told.registers[name];
    const is_new = before && before.registers[name] !== value;
    return make('tr', { class: is_new ? 'is-new' : '' }, make('th', { scope: 'row' }, name), make('td', { 'data-register': name }, String(value)),
      make('td', { class: 'means' }, value > 0x7fffffff ? String(signed_word(value)) : ''),
        make('td', { class: 'means' }, is_new ? `was ${before.registers[name]}` : what));
  }));
}

function listing_table({ listing, loaded }) {
  if (listing.length === 0) return make('p', { class: 'help' }, 'No instruction is next.');
  return make('table', { class: 'words' }, listing.map(({ address, text }, at) => {
    const place = line_at(loaded, address);
    return make('tr', { class: at === 0 ? 'is-now' : '' }, make('td', {}, at === 0 ? '▶' : ''), make('td', {}, String(address)),
      make('td', { class: 'wide', title: effect_of(...text.split(' ')) }, text),
      make('td', { class: 'means' }, place ? `${place.file}:${place.line}` : ''));
  }));
}

function letters_of_word(word) {
  return [0, 8, 16, 24].map((by) => (word >>> by) & 255).map((it) => (it >= 32 && it < 127 ? String.fromCharCode(it) : '·')).join('');
}

function words_table(words, before, name_of) {
  return make('table', { class: 'words' }, make('tr', {}, ['', 'word', 'decimal', 'hex', 'letters'].map((it) => make('th', { scope: 'col' }, it))),
    [...words].map(([at, word]) => {
    const is_new = before?.has(at) && before.get(at) !== word;
    return make('tr', { class: is_new ? 'is-new' : '', title: is_new ? `It was ${signed_word(before.get(at))}` : null },
      make('td', { class: 'means' }, is_new ? `* ${name_of(at)}` : name_of(at)), make('td', {}, String(at)),
      make('td', {}, String(signed_word(word))), make('td', {}, word.toString(16).padStart(8, '0')), make('td', {}, letters_of_word(word)));
  }));
}

function frame_words({ state: told, frames, before }) {
  const { P } = told.registers;
  if (P === 0) return make('p', { class: 'help' }, 'Nobody runs, so there is no frame.');
  const names = ['P!0 caller', 'P!1 returns to', 'P!2 function'];
  const words = new Map([...frames].filter(([at]) => at >= P && at < P + 12));
  return words_table(words, before?.frames, (at) => names[at - P] ?? `P!${at - P}`);
}

function calls_list({ state: told, frames, loaded, place_in }) {
  const rows = [];
  let { P, PC } = told.registers;
  const told_place = (byte) => {
    const place = line_at(loaded, byte);
    const words = place_in(byte);
    return `${byte}${words && `, ${words}`}${place ? ` (${place.file}:${place.line})` : ''}`;
  };
  for (let depth = 0; depth < 20 && frames.has(P + 2); depth++) {
    const [caller, back, entry] = [frames.get(P), frames.get(P + 1), frames.get(P + 2)];
    if (back === 0) break;
    rows.push(make('li', {}, `at ${told_place(PC)}, in the function at ${told_place(entry)}`));
    [P, PC] = [caller, back];
  }
  return rows.length === 0 ? make('p', { class: 'help' }, 'No function has called another one here.')
    : make('ol', { class: 'rows' }, rows, make('li', {}, `at ${told_place(PC)}`));
}

function controls() {
  const slider = make('input', { type: 'range', min: '0', max: '0', value: '0', id: 'slider', 'aria-label': 'Step' });
  const number = make('input', { class: 'middle', inputmode: 'numeric', value: '0', id: 'step', 'aria-label': 'Number of the step' });
  const of = make('span', { class: 'means', id: 'of-steps' });
  slider.addEventListener('input', () => go_to_step(Number(slider.value)));
  number.addEventListener('change', () => /^[0-9]{1,10}$/.test(number.value.trim()) && go_to_step(Number(number.value)));
  watch(['moment'], () => {
    const { moment } = state;
    if (!moment?.session) return;
    slider.max = String(moment.last);
    slider.value = String(moment.step);
    if (document.activeElement !== number) number.value = String(moment.step);
    fill(of, `${moment.is_known ? 'of' : 'of at most'} ${moment.last.toLocaleString('en')}`);
  });
  return make('div', { class: 'bar controls' },
    button('|◀', () => go_to_step(0), { 'aria-label': 'To the beginning', title: 'To the beginning (Home)' }),
    button('◀ Back', step_back, { id: 'back', title: 'One step back (←)' }),
    button('Step ▶', step_forth, { id: 'forth', class: 'primary', title: 'One step (→)' }),
    button('Over', step_over, { id: 'over', title: 'Over a call of a function (O)' }),
    button('◀ Breakpoint', go_back, { id: 'go-back', title: 'Back to the breakpoint that was met last (B)' }),
    button('Breakpoint ▶', () => go_on(), { id: 'go-on', title: 'On to the next breakpoint, or to the end (C)' }),
    button('To line', ask_for_line, { title: 'Up to a line (L), or a double click at it' }),
    button('▶|', () => go_to_step(Number(slider.max)), { 'aria-label': 'To the end', title: 'To the end (End)' }),
    slider, labelled('step', number), of);
}

function words_chooser() {
  const from = make('input', { value: 'G', class: 'name', id: 'words-from', 'aria-label': 'The first word',
    title: 'A word address, or P or G, as G+20' });
  const count = make('input', { value: '12', class: 'short', inputmode: 'numeric', 'aria-label': 'How many words' });
  const take = () => {
    if (!/^[0-9]{1,4}$/.test(count.value.trim()) || (state.moment?.state && address_in(from.value, state.moment.state.registers) === null)) {
      change({ notice: 'Words are shown from a number, or from P or G, as G+20; and up to 4096 of them.' });
      return;
    }
    change({ words_from: { text: from.value, count: Math.min(4096, Number(count.value)) } });
    go_to_step(state.step);
  };
  from.addEventListener('change', take);
  count.addEventListener('change', take);
  return make('div', { class: 'bar' }, labelled('from', from), labelled('words', count));
}

function part(title, ...body) {
  return make('section', { class: 'part' }, make('h3', {}, title), body);
}

const ON_KEY = {
  ArrowRight: step_forth, ArrowLeft: step_back, o: step_over, c: () => go_on(), b: go_back, l: ask_for_line, Home: () => go_to_step(0),
    End: () => go_to_step(state.moment?.last ?? 0),
  PageDown: () => go_to_step(state.step + 100), PageUp: () => go_to_step(state.step - 100),
};

/** What a key does in this view; true where it does something. */
export function steps_key(event) {
  const act = ON_KEY[event.key];
  if (!act || event.ctrlKey || event.altKey || event.metaKey) return false;
  act();
  return true;
}

/** The view. */
export function steps_view() {
  const source = source_view(go_to_line);
  const tabs = make('div', { class: 'file-tabs', role: 'tablist', 'aria-label': 'Files' });
  const said = make('p', { class: 'ending', role: 'status', 'aria-live': 'polite', id: 'said' });
  const middle = make('div', { class: 'parts' });
  const words = make('div');
  const right = make('div', { class: 'parts' });
  const right_above = make('div', { class: 'parts' });
  const output = make('pre', { class: 'output', tabindex: '0', 'aria-label': 'Console up to this step', id: 'step-console' });
  const chooser = words_chooser();

  const show_source = (is_new) => {
    const { moment } = state;
    const place = moment?.session && moment.state.registers.PC !== 0 ? line_at(moment.loaded, moment.state.registers.PC) : null;
    const programs = state.own === null || (moment?.session && made_of(moment.session)) ? state.project.files.filter((file) => is_assembly(file.name)) : [];
    if (is_new && place) state.open_source = place.file;
    if (!programs.some((file) => file.name === state.open_source)) state.open_source = programs[0]?.name ?? '';
    fill(tabs, programs.map(({ name }) => make('span', { class: name === state.open_source ? 'file-tab is-open' : 'file-tab' },
      button(name, () => { state.open_source = name; show_source(false); }, { role: 'tab', 'aria-selected': String(name === state.open_source) }))));
    if (programs.length > 0) source.show(state.open_source, place?.file === state.open_source ? place.line : 0);
    else source.say(state.own !== null ? 'The text of the session is your own, so its bytes are of no file. The next instructions are at the right.'
      : 'There is no program yet.');
  };

  function show() {
    const { moment } = state;
    if (!moment || moment.failed) {
      fill(said, moment?.failed ? make('span', { class: 'bad' }, `✕ ${moment.failed}`) : 'The session runs …');
      fill(middle); fill(words); fill(right_above); fill(right); fill(output);
      return;
    }
    const { state: told } = moment;
    const place = told.registers.PC !== 0 ? line_at(moment.loaded, told.registers.PC) : null;
    const is_end = moment.step === moment.last || moment.why !== 'steps';
    const effect = effect_of(...(told.next ?? '').split(' '));
    const where = told.next
      ? `next: ${told.next}${effect ? ` (${effect})` : ''} at ${told.registers.PC}${place ? `, line ${place.line} of ${place.file}` : ''}` : told.who;
    fill(said, make('strong', {},
      `After ${counted(moment.step, 'step')}${/ at tick ([0-9]+)/.exec(told.said) ? `, tick ${/ at tick ([0-9]+)/.exec(told.said)[1]}` : ''}: `),
      is_end ? `${ending_in_words(moment.closing)}${moment.why === 'steps' ? ` (GO ${steps_of(moment.session)}.) ` : ' '}` : '', is_end
        && moment.why !== 'steps' ? '' : where);
    fill(middle, part('Registers', registers_table(moment)), part('Next instructions', listing_table(moment)), part('Frame', frame_words(moment)),
      part('Calls', calls_list(moment)));
    const from = state.words_from?.text ?? 'G';
    fill(words, moment.words.size > 0 ? words_table(moment.words, moment.before?.words,
      (at) => `${/^[PG]/.test(from) ? from[0] : ''}${/^[PG]/.test(from) ? `!${at - told.registers[from[0]]}` : ''}`)
      : make('p', { class: 'help' }, 'The store has no such word.'));
    fill(right_above, told.parts.tasks ? state_parts(with_places(told, moment.place_in), ['tasks', 'queues']) : []);
    fill(right, told.parts.tasks ? state_parts(told.parts, ['blocks', 'modules']) : []);
    fill(output, screen_text(moment.console.slice(-20000)));
    output.scrollTop = output.scrollHeight;
  }

  watch(['moment'], () => { show(); show_source(true); });
  watch(['breaks', 'shape', 'own'], () => show_source(false));
  const refresh = () => { if (state.view === 'steps') go_to_step(state.step); };
  watch(['view', 'made', 'own'], refresh);
  show();
  show_source(true);
  refresh();
  return make('div', { class: 'steps' }, make('section', { class: 'card steer', 'aria-label': 'Steps' }, controls(), said),
    make('section', { class: 'card', 'aria-label': 'Program' }, make('div', { class: 'bar' }, tabs), source.node,
      make('h2', { class: 'over-output' }, 'Console'), output),
    make('section', { class: 'card scrolls', 'aria-label': 'The machine' }, middle, typed_words()),
    make('section', { class: 'card scrolls', 'aria-label': 'Store and kernel' }, right_above,
      make('div', { class: 'parts' }, part('Words of the store', chooser, words)), right));
}
