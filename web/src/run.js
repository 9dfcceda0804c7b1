// The console: runs what the user has made, and shows what the program answers.
import { ask, Stopped, stop_all } from './asking.js';
import { file_word, word } from './bundle.js';
import { closing_of, ending_in_words, meaning, refusal_in } from './codes.js';
import { button, choice, fill, make } from './elements.js';
import { many_runs_row, outcomes_in_words, outcomes_of, variant_of } from './many_runs.js';
import { state_at } from './moment.js';
import { line_at, loaded_programs, programs_of } from './places.js';
import { cut_for_show, screen_text } from './screen.js';
import { change, state, watch } from './state.js';
import { duration, hex_rows, save_as } from './text.js';
import { command_for, known_session, made_of, session_now } from './work.js';

// the kind of the text that a command reads, for the tool that says what is wrong in it
const TEXT_KINDS = new Map([['run', 'session'], ['dump', 'session'], ['trace', 'session'], ['outcomes', 'session'],
  ['ring', 'ring']]);

// how many outcomes can be opened by a button
const MOST_OFFERED = 12;

const COMMANDS = [['run', 'what it writes'], ['dump', 'and the words of the store'], ['trace', 'the events of the kernel'],
  ['outcomes', 'what many runs come to']];

/** Runs the session that is there now. */
export async function run_now() {
  try {
    const text = await session_now();
    if (text === null) {
      change({ run: { failed: state.made.problem.words, problem: state.made.problem }, side: 'machine' });
      return;
    }
    const command = command_for(text, state.command);
    change({ run: { ...state.run, is_running: true } });
    const { status, bytes, text: letters, milliseconds, firsts, asked } = await answer_of(command, text);
    const run = { input: text, command, status, bytes, letters, milliseconds, firsts, asked, errors: await errors_of(text, command, letters) };
    change({ run });
    const place = await place_of_fault(text, letters);
    if (place && state.run === run) change({ run: { ...run, place } });
  } catch (error) {
    change({ run: { failed: error instanceof Stopped ? 'Stopped: the run was ended before its end, and nothing of it is kept.' : error.message } });
  }
}

/** What the program answers to a text. */
function answer_of(command, text) {
  return command === 'outcomes' ? outcomes_of(text, state.many) : ask('tripos', [command], text, 'the session runs');
}

/** Runs the session with the first value of an outcome, as the user's own text. */
async function run_with({ input, asked }, value) {
  try {
    const own = await variant_of(input, asked, value);
    change({ own, side: 'session', command: 'run', is_changed: true });
    await run_now();
  } catch (error) {
    if (!(error instanceof Stopped)) change({ notice: error.message });
  }
}

/** What is wrong in a text that was refused, in words, each error with its line; or null where that is not known. */
async function errors_of(text, command, letters) {
  if (!refusal_in(letters) || !TEXT_KINDS.has(command)) return null;
  return (await ask('tripos_show', ['errors'], word(TEXT_KINDS.get(command)) + file_word('', text), 'what is wrong is looked for')).text;
}

/** The line of the instruction that faulted, where the fault names a byte and the line is known; else null. */
async function place_of_fault(session, letters) {
  const fault = /^fault [12578] at ([0-9]+) /.exec(closing_of(letters)?.why ?? '');
  const made = made_of(session);
  if (!fault || !made) return null;
  const moment = await state_at(session, closing_of(letters).steps);
  return line_at(loaded_programs(made, await programs_of(made), moment), Number(fault[1]));
}

/** How a run ended, in words, and whether that is a fault: `{words, is_bad, line}`. */
export function ending_of({ failed, letters, status, command, errors }) {
  if (failed) return { words: failed, is_bad: true };
  const refused = refusal_in(letters);
  if (refused) {
    const why = errors?.split('\n')[0] ?? `line ${refused.line}: ${meaning(command, refused.code)} (code ${refused.code})`;
    return { words: `${refused.is_boot ? 'The machine does not boot' : 'The text is refused'}: ${why}.`, is_bad: true, line: refused.line };
  }
  if (command === 'outcomes' && status === 0) return { words: outcomes_in_words(letters), is_bad: false };
  const closing = closing_of(letters);
  if (closing) return { words: ending_in_words(closing), is_bad: status === 10 };
  const ring = ring_closing(letters);
  if (ring) return { words: ring.words, is_bad: false };
  return { words: meaning('status', String(status)), is_bad: status !== 0 };
}

/** The closing line of a ring, in words, and its length with its line ends; or null. */
function ring_closing(letters) {
  const found = /\n\* ring after ([0-9]+) rounds: sent ([0-9]+) delivered ([0-9]+) acknowledged ([0-9]+)\n$/.exec(letters.slice(-200));
  return found && { length: found[0].length,
    words: `The ring ended after ${found[1]} rounds: ${found[2]} bytes were sent, ${found[3]} delivered, and ${found[4]} acknowledged.` };
}

/** What the program has written before its closing line, as letters. */
function written_before_closing(letters) {
  const closing = closing_of(letters) ?? ring_closing(letters);
  return closing ? letters.slice(0, letters.length - closing.length) : letters;
}

/** The bar with Run and Stop, and the console. */
export function run_pane({ show_line, show_place }) {
  const ending = make('p', { class: 'ending', role: 'status', 'aria-live': 'polite', id: 'ending' });
  const output = make('pre', { class: 'output', tabindex: '0', 'aria-label': 'Console: what the program writes', id: 'console' });
  const age = make('span', { class: 'note' });
  const said = make('p', { class: 'said' });
  let is_hex = false;

  const run_button = button('▶ Run', run_now, { class: 'primary', id: 'run', title: 'Ctrl+Enter' });
  const stop_button = button('■ Stop', stop_all, { id: 'stop', title: 'Esc', disabled: true });
  const hex_button = button('Hex', () => { is_hex = !is_hex; hex_button.setAttribute('aria-pressed', is_hex); show(); },
    { 'aria-pressed': 'false', title: 'The bytes as they are' });
  const save_button = button('Save', () => state.run?.bytes && save_as('answer.txt', state.run.bytes), { title: 'Save all bytes to a file' });
  const chosen = make('span');
  const show_commands = () => fill(chosen, choice(COMMANDS, state.command, (command) => change({ command }),
    { 'aria-label': 'What is shown', id: 'command' }));

  function show() {
    const { run } = state;
    run_button.disabled = Boolean(run?.is_running);
    stop_button.disabled = !run?.is_running;
    hex_button.disabled = save_button.disabled = !run?.bytes;
    show_ending(run);
    show_age();
    show_output(run);
  }

  function show_ending(run) {
    if (!run || run.is_running) {
      ending.className = 'ending';
      fill(ending, run ? 'Running …' : 'Not run yet: Run, or Ctrl+Enter, runs the session.');
      return;
    }
    const { words, is_bad, line } = ending_of(run);
    const { place } = run;
    ending.className = is_bad ? 'ending bad' : 'ending good';
    fill(ending, make('strong', {}, is_bad ? '✕ ' : '✓ '), words, run.milliseconds === undefined ? null
      : make('span', { class: 'time' }, ` ${duration(run.milliseconds)}`),
      line ? button(`Show line ${line}`, () => show_line(line), { class: 'link' }) : null,
      place ? button(`Line ${place.line} of ${place.file}`, () => show_place(place.file, place.line), { class: 'link', id: 'fault-line' }) : null,
      run.problem?.where?.line ? button('Show the line', () => show_place(run.problem.where.file, run.problem.where.line), { class: 'link' }) : null,
      age);
  }

  // the buttons stay as they are here: one that is drawn anew while it is pressed is not clicked
  function show_age() {
    const { run } = state;
    const is_old = run?.input !== undefined && known_session() !== null && run.input !== known_session();
    age.textContent = is_old ? ' — before your last change; Run runs it again' : '';
  }

  function show_output(run) {
    if (run?.is_running) { fill(said); return; }
    if (!run?.bytes) { fill(output); fill(said); return; }
    if (is_hex) {
      fill(output, hex_rows(run.bytes));
      fill(said, run.bytes.length > 4096 ? `The first 4,096 of ${run.bytes.length.toLocaleString('en')} bytes; Save has them all.` : '');
      return;
    }
    if (run.errors) { fill(output, run.errors); fill(said); return; }
    const { shown, said: cut } = cut_for_show(run.letters, run.bytes.length);
    fill(output, ['run', 'resume', 'ring'].includes(run.command) ? screen_text(written_before_closing(shown)) : screen_text(shown));
    fill(said, cut, run.firsts ? ['One of these runs: ', run.firsts.slice(0, MOST_OFFERED).map((value) =>
      button(`with ${value}`, () => run_with(run, value), { class: 'link', 'data-value': value }))] : null);
  }

  watch(['run'], show);
  watch(['made', 'own'], show_age);
  watch(['command', 'shape'], show_commands);
  show();
  show_commands();
  return make('section', { class: 'card console', 'aria-label': 'Run' },
    make('div', { class: 'bar' }, run_button, stop_button, chosen, make('span', { class: 'grow' }), hex_button, save_button), many_runs_row(), ending, output, said);
}
