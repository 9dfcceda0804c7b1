// The view Terminal: a machine with a shell, at whose keyboard the user types. Each key gets the step at which it came, so the record is a session.
import { ask, Stopped } from './asking.js';
import { closing_of, ending_in_words } from './codes.js';
import { button, choice, fill, labelled, make } from './elements.js';
import { example_named } from './examples.js';
import { files } from './files.js';
import { steps_of } from './moment.js';
import { open_instead } from './opening.js';
import { empty_project } from './project.js';
import { session_of } from './session.js';
import { screen_text } from './screen.js';
import { state, watch } from './state.js';
import { hex_byte, save_as } from './text.js';
import { known_session } from './work.js';

const MOST_MACHINE_STEPS = 4000000000;
const STEPS_OF_KEY = 10;
const MOMENT = 100;
const CONTROL = { b: 2, c: 3, d: 4, e: 5 };

/** A session with more keys among its own, each after all that are due when it comes, and with these steps. */
function with_keys(session, keys, steps) {
  const waiting = keys.slice();
  const lines = [];
  let due = 0;
  const put_before = (step) => { while (waiting.length > 0 && waiting[0].step < step) { const { step: own,
    byte } = waiting.shift(); lines.push(`KEY ${own} ${hex_byte(byte)}`); } };
  for (const line of session.replace(/\r/g, '').replace(/\n$/, '').split('\n')) {
    const own = /^(?:AT|KEY) ([0-9]+)/.exec(line);
    if (own) { due = Math.max(due, Number(own[1])); put_before(due); }
    if (/^GO [0-9]+$/.test(line)) { put_before(Infinity); lines.push(`GO ${steps}`); } else lines.push(line);
  }
  return `${lines.join('\n')}\n`;
}

/** A machine at which keys are typed: its first session, the keys since, the steps so far, and what it has written. */
class Machine {
  keys = [];
  written = '';
  why = 'steps';
  /** up to this step nothing is written where no key comes */
  quiet = 0;

  constructor(session, project) {
    this.session = session;
    this.project = project;
    this.now = steps_of(session);
  }

  record() {
    return with_keys(this.session, this.keys.filter(({ step }) => step <= this.now), this.now);
  }

  press(byte) {
    if (this.now + STEPS_OF_KEY > MOST_MACHINE_STEPS) return;
    this.keys.push({ step: this.now + 1, byte });
    this.now += STEPS_OF_KEY;
    this.quiet = 0;
  }

  async #ran(steps) {
    const { text } = await ask('tripos', ['run'], with_keys(this.session, this.keys, steps), 'the machine runs');
    const closing = closing_of(text);
    if (!closing) throw new Error(text.trim());
    return { closing, written: text.slice(0, text.length - closing.length) };
  }

  /** So many steps pass; then what is written is known. */
  async pass(steps) {
    this.now = Math.min(MOST_MACHINE_STEPS, this.now + steps);
    if (this.now <= this.quiet) return;
    const before = this.written;
    const { closing, written } = await this.#ran(this.now);
    this.written = written;
    this.why = closing.why;
    this.closing = closing;
    if (closing.why !== 'steps') { this.now = closing.steps; return; }
    if (written !== before || this.keys.at(-1)?.step > this.now - MOMENT) return;
    const ahead = Math.min(MOST_MACHINE_STEPS, this.now + 600 * MOMENT);
    const later = await this.#ran(ahead);
    if (later.closing.why === 'steps' && later.written === written) this.quiet = ahead;
  }
}

/** The session to begin with and its project: those of the user's work where it has a kernel, or one of two with a shell; or null. */
async function first_session(which) {
  const session = known_session();
  if (which === 'own') return session && !/^BARE/m.test(session) && /^TRIPOS /.test(session) ? { session, project: state.project } : null;
  const { project } = example_named(await files(), 'shell');
  const items = project.items.filter(({ kind }) => kind === 'program' || kind === 'file');
  const begin = which === 'shell' ? { ...project, items, steps: '100' }
    : { ...empty_project(), kind: 'shell', store: '16384', has_reporter: true, steps: '100' };
  return { session: (await session_of(begin)).text, project: begin };
}

/** The view. */
export function terminal_view() {
  let machine = null;
  let which = 'shell';
  let steps = MOMENT;
  let is_busy = false;
  const typed = [];
  const output = make('pre', { class: 'output terminal-screen', tabindex: '0', role: 'textbox', 'aria-multiline': 'true',
    'aria-label': 'Terminal: what is typed goes to the machine', id: 'terminal' });
  const said = make('p', { class: 'ending', id: 'terminal-said' });
  // what is new, for screen readers
  const heard = make('div', { class: 'heard', role: 'log', 'aria-live': 'polite' });
  let told = '';
  // for tablets, which give letters only to a field
  const line = make('input', { class: 'line', 'aria-label': 'A line for the machine', id: 'terminal-line', autocapitalize: 'off', autocomplete: 'off',
    spellcheck: 'false' });

  function tell(written) {
    const fresh = written.startsWith(told) ? written.slice(told.length) : written;
    if (/[^ \n]/.test(fresh)) heard.append(make('p', {}, screen_text(fresh.slice(-500))));
    while (heard.childElementCount > 20) heard.firstChild.remove();
    told = written;
  }

  function show() {
    const { written } = machine ?? { written: '' };
    tell(written);
    fill(output, screen_text(written.slice(-20000)), machine?.why === 'steps' ? make('span', { class: 'caret', 'aria-hidden': 'true' }, '▏') : null);
    output.scrollTop = output.scrollHeight;
    if (machine) fill(said, machine.why === 'steps'
      ? `Step ${machine.now.toLocaleString('en')}, ${machine.keys.length} ${machine.keys.length === 1 ? 'key' : 'keys'} typed.`
      : ending_in_words(machine.closing));
  }

  async function start() {
    typed.length = 0;
    try {
      const first = await first_session(which);
      if (!first) { machine = null; show(); fill(said, make('span', { class: 'bad' },
        '✕ Your work is no session with a kernel: choose guests or shell in Programs.')); return; }
      machine = new Machine(first.session, first.project);
      await machine.pass(steps);
    } catch (error) {
      machine = null;
      if (!(error instanceof Stopped)) fill(said, make('span', { class: 'bad' }, `✕ ${error.message}`));
    }
    show();
  }

  async function moment() {
    if (!machine || is_busy || state.view !== 'terminal' || machine.why !== 'steps' || document.hidden) return;
    is_busy = true;
    try {
      const had_keys = typed.length > 0;
      for (const byte of typed.splice(0)) machine.press(byte);
      await machine.pass(had_keys ? steps - STEPS_OF_KEY : steps);
      show();
    } catch (error) {
      machine = null;
      fill(said, make('span', { class: 'bad' }, error instanceof Stopped ? '✕ Stopped. Start begins anew.' : `✕ ${error.message}`));
    }
    is_busy = false;
  }

  function type_text(text) {
    for (const letter of text.replace(/\r\n?/g, '\n')) typed.push(letter.charCodeAt(0) & 255);
    moment();
  }

  function on_terminal_key(event) {
    if (event.metaKey || event.altKey || event.key === 'Tab') return;
    if (event.key === 'Enter') typed.push(10);
    else if (event.key === 'Backspace') typed.push(8);
    else if (event.ctrlKey && CONTROL[event.key] && !(event.key === 'c' && String(getSelection()))) typed.push(CONTROL[event.key]);
    else if (event.key.length === 1 && !event.ctrlKey) typed.push(event.key.charCodeAt(0) & 255);
    else return;
    event.preventDefault();
    event.stopPropagation();
    moment();
  }

  output.addEventListener('keydown', on_terminal_key);
  output.addEventListener('paste', (event) => { event.preventDefault(); type_text(event.clipboardData.getData('text')); });
  setInterval(moment, MOMENT);
  watch(['view'], () => { if (state.view === 'terminal') output.focus(); });

  const typed_work = () => ({ project: { ...machine.project, title: 'Typed at the terminal' }, own: machine.record(), command: 'run' });
  const to_programs = () => machine
    && open_instead(typed_work());
  const to_story = () => machine
    && open_instead(typed_work(), { view: 'happened' });
  const send_line = (event) => { event.preventDefault(); type_text(`${line.value}\n`); line.value = ''; };
  start();
  return make('div', { class: 'terminal' }, make('section', { class: 'card', 'aria-label': 'Terminal' },
    make('div', { class: 'bar' },
      labelled('machine', choice([['shell', 'a shell with three programs'], ['empty', 'a shell with no file'], ['own', 'my session of Programs']],
        which, (own) => { which = own; start().then(() => output.focus()); }, { id: 'terminal-machine' })),
      labelled('steps in a tenth of a second', choice([['10', '10'], ['100', '100'], ['1000', '1,000'], ['10000', '10,000']], '100',
        (own) => { steps = Number(own); })),
      button('Start anew', () => start().then(() => output.focus())), make('span', { class: 'grow' }),
      button('Record to Programs', to_programs, { id: 'record', title: 'The keys with their steps, as a session' }),
        button('What happened', to_story), button('Save record', () => machine && save_as('typed.session', machine.record()))),
    said, output, heard,
    make('form', { class: 'bar send', on_submit: send_line }, make('label', { class: 'field wide' }, make('span', {}, 'line'), line),
      make('button', { class: 'small' }, 'Send')),
    make('p', { class: 'keys-hint' },
      'Click into the terminal and type: EX lists the files, TYPE note shows one, hello runs a program, RUN beat starts a task, STATUS shows the tasks, FINISH ends. Ctrl+B, C, D, E: flags of a program. Tab leaves.')));
}
