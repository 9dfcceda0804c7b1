// The view Saved machines: a machine is written as a text at a step, kept in a file, and gone on with.
import { ask, Stopped } from './asking.js';
import { closing_of, ending_in_words, meaning, refusal_in } from './codes.js';
import { button, fill, labelled, make } from './elements.js';
import { is_session, with_steps } from './moment.js';
import { screen_text } from './screen.js';
import { change, state } from './state.js';
import { bytes_of, hex_byte, is_number_in, load_file, save_as } from './text.js';
import { session_now } from './work.js';

/** A saved machine that is to take so many steps more, with keys typed: `{step, text}`, where the step counts from the saved moment. */
function resumed(saved, steps, typed) {
  const taken = Number(/^STEP ([0-9]+)/m.exec(saved)?.[1] ?? 0);
  const keys = typed.flatMap(({ step, text }) => [...bytes_of(`${text}\n`)].map((byte) => ({ step: taken + step,
    line: `KEY ${taken + step} ${hex_byte(byte)}` })));
  const lines = [];
  let old = 0;
  let due = 0;
  const put = (limit) => { while (keys.length > 0 && Math.max(due, keys[0].step) < limit) { due = Math.max(due,
    keys[0].step); lines.push(keys.shift().line); } };
  for (const line of saved.replace(/\r/g, '').replace(/\n$/, '').split('\n')) {
    const own = /^KEY ([0-9]+)/.exec(line);
    if (own) { old = Math.max(old, Number(own[1])); put(old); }
    if (/^(W|GO) /.test(line)) put(Infinity);
    lines.push(/^GO /.test(line) ? `GO ${steps}` : line);
  }
  return `${lines.join('\n')}\n`;
}

/** The first lines of a saved machine in words. */
function told_machine(saved) {
  const field = (pattern) => pattern.exec(saved)?.[1];
  const files = [...saved.matchAll(/^FILE (\S+)/gm)].map(([, name]) => name);
  return [
    `${/^BARE/m.test(saved) ? 'A bare machine' : `A machine with a kernel, a tick every ${field(/^TICK ([0-9]+)/m)} steps`}, of ${field(/^STORE ([0-9]+)/m)} words; version ${field(/^TRIPOS-IMAGE ([0-9]+)/)}.`,
    `It has taken ${Number(field(/^STEP ([0-9]+)/m)).toLocaleString('en')} steps.`, files.length > 0 ? `Its files: ${files.join(', ')}.` : '',
  ].filter(Boolean).join(' ');
}

/** The view. */
export function saved_view() {
  let saved = '';
  const at = make('input', { class: 'middle', inputmode: 'numeric', value: '100', id: 'save-at', 'aria-label': 'The step at which it is saved' });
  const more = make('input', { class: 'middle', inputmode: 'numeric', value: '1000', id: 'more-steps', 'aria-label': 'How many steps more' });
  const typed = make('textarea', { rows: '3', class: 'session short-text', id: 'typed', spellcheck: 'false', placeholder: '10 EX',
    'aria-label': 'What is typed: a step and a line' });
  const said = make('p', { class: 'ending', role: 'status', 'aria-live': 'polite', id: 'saved-said' });
  const about = make('p', { class: 'help' });
  const text = make('textarea', { class: 'session', spellcheck: 'false', wrap: 'off', 'aria-label': 'The text of the saved machine',
    id: 'saved-text' });
  const output = make('pre', { class: 'output', tabindex: '0', 'aria-label': 'What it writes when it goes on', id: 'saved-output' });
  const bad = (words) => fill(said, make('span', { class: 'bad' }, `✕ ${words}`));

  function take(given) {
    saved = given;
    text.value = saved;
    fill(about, saved ? told_machine(saved) : 'No machine yet: save one, or load a file that has one.');
  }
  text.addEventListener('input', () => { saved = text.value; });

  async function guarded(act) {
    try {
      await act();
    } catch (error) {
      bad(error instanceof Stopped ? 'Stopped.' : error.message);
    }
  }

  const save = () => guarded(async () => {
    const session = await session_now();
    if (session === null) { bad(state.made.problem.words); return; }
    if (!is_session(session)) { bad('What is in Programs is no session.'); return; }
    if (!is_number_in(at.value.trim(), 0, 4000000000)) { bad(`The step is a number from 0 to 4000000000, and not ${at.value}.`); return; }
    const given = await ask('tripos', ['save'], with_steps(session, at.value.trim()), 'the machine runs, and is saved');
    if (given.text.startsWith('TRIPOS-IMAGE ')) { take(given.text); fill(said,
      `✓ Saved after ${at.value.trim()} steps: ${given.bytes.length.toLocaleString('en')} bytes.`); return; }
    const closing = closing_of(given.text);
    bad(closing ? `There is nothing to go on with. ${ending_in_words(closing)}` : given.text.trim());
  });

  const go_on = () => guarded(async () => {
    if (!saved) { bad('There is no machine yet.'); return; }
    if (!is_number_in(more.value.trim(), 0, 4000000000)) { bad(`The steps are a number from 0 to 4000000000, and not ${more.value}.`); return; }
    const lines = typed.value.split('\n').filter((line) => line.trim() !== '').map((line) => /^ *([0-9]{1,10}) (.*)$/.exec(line));
    if (lines.includes(null)) { bad('Each line of what is typed is a step, a blank, and the line, as: 10 EX'); return; }
    if (lines.length > 0 && /^BARE/m.test(saved)) { bad('At a bare machine nothing can be typed.'); return; }
    const input = resumed(saved, more.value.trim(), lines.map(([, step, words]) => ({ step: Number(step), text: words })));
    const given = await ask('tripos', ['resume'], input, 'the saved machine goes on');
    const refused = refusal_in(given.text);
    if (refused) { fill(output); bad(`The text is no machine: line ${refused.line}: ${meaning('resume', refused.code)} (code ${refused.code}).`); return; }
    const closing = closing_of(given.text);
    fill(output, screen_text(given.text.slice(0, given.text.length - (closing?.length ?? 0))));
    fill(said, closing ? `✓ ${ending_in_words(closing).replace('of the session are', 'are')}` : '');
  });

  const load = () => load_file('',
    (name, given) => { if (given.startsWith('TRIPOS-IMAGE ')) { take(given); fill(said,
    `✓ ${name} is loaded.`); } else bad(`${name} is no saved machine, which begins with a line TRIPOS-IMAGE.`); });
  take('');
  return make('div', { class: 'saved' },
    make('section', { class: 'card', 'aria-label': 'Save' }, make('div', { class: 'bar' }, make('h2', {}, '1. A machine'),
      labelled('of Programs, after step', at), button('Save the machine', save, { class: 'primary', id: 'save-machine' }),
      button('… at the step of Steps', () => { at.value = String(state.step); save(); }), button('Load …', load),
        button('To a file', () => saved && save_as('machine.saved', saved), { id: 'saved-file' })), about, text),
    make('section', { class: 'card', 'aria-label': 'Go on' }, make('div', { class: 'bar' }, make('h2', {}, '2. Go on with it'),
      labelled('steps more', more), button('▶ Go on', go_on, { class: 'primary', id: 'resume' })),
      make('label', { class: 'stacked' }, make('span', {}, 'Typed meanwhile: on each line a step from now, and the text'), typed), said, output,
      make('p', { class: 'keys-hint' },
        'The text is a whole machine: its words, registers, files and keys. You may change it, and go on as often as you like. ',
        button('The manual on it', () => change({ view: 'learn', page: 'docs/manual/saved-machines.md' }), { class: 'link' }))));
}
