// The runs of a session with each of many values of one number: what the user asks for, and what the program tells of them.
import { ask } from './asking.js';
import { file_word, what_is_wrong, word } from './bundle.js';
import { choice, fill, labelled, make } from './elements.js';
import { change, state, watch } from './state.js';

const SETTINGS = [['tick', 'the period of the clock'], ['key', 'the step of key'], ['priority', 'the priority of task'], ['stack', 'the stack of task']];
const LINES_SHOWN = '4';
const SPANS_SHOWN = '12';

/** What is asked for where the user has said nothing: `{what, number, values}`. */
export const FIRST_ASKED = { what: 'tick', number: '5', values: '20-60' };

/** What is asked for, as it was kept; the first that there is, where nothing was. */
export function asked_of(kept) {
  const is_whole = SETTINGS.some(([what]) => what === kept?.what) && typeof kept.number === 'string' && typeof kept.values === 'string';
  return is_whole ? { what: kept.what, number: kept.number, values: kept.values } : FIRST_ASKED;
}

/**
 * What the runs of a session come to, as the program tells it: an answer whose `text` is a table, with the first value of each outcome in `firsts`
 * and what was asked in `asked`; or the line with which the session is refused. Throws an Error with a sentence where the session has no such
 * number, or the values are none.
 */
export async function outcomes_of(session, asked) {
  const words = [LINES_SHOWN, SPANS_SHOWN, ...setting_words(asked), asked.values.replace(/\s+/g, '')];
  const given = await told('outcomes', words, session, 'the session runs with each value');
  if (given.status !== 0) return after_letters(given, given.text.indexOf('\n') + 1);
  const end = given.text.indexOf('\n\n');
  // where there is no session with a value, its line is -
  const firsts = given.text.slice(0, end).split('\n').filter((value) => value !== '-');
  return { ...after_letters(given, end + 2), firsts, asked };
}

/** The text of a session with another value of the number that is asked for, as a Promise. */
export async function variant_of(session, asked, value) {
  return (await told('variant', [...setting_words(asked), value], session, 'the session gets this value')).text;
}

function setting_words({ what, number }) {
  return what === 'tick' ? [what] : [what, number.trim()];
}

async function told(tool, words, session, doing) {
  const given = await ask('tripos_show', [tool], words.map(word).join('') + file_word('this session', session), doing);
  if (given.status === 3 && !given.text.startsWith('* 3\n')) throw new Error(what_is_wrong(given.text).replace(/^tries: /, 'Nothing is tried: '));
  return given;
}

/** An answer without its first letters, each of which is a byte. */
function after_letters(given, length) {
  return { ...given, text: given.text.slice(length), bytes: given.bytes.subarray(length) };
}

/** What a table of outcomes says first: how many there are. */
export function outcomes_in_words(table) {
  const count = Number(/, ([0-9]+) outcomes?\n/.exec(table)?.[1]);
  return count === 1 ? 'Each run comes to the same.' : `The runs come to ${count.toLocaleString('en')} outcomes.`;
}

/** The fields for what is asked for. */
export function many_runs_row() {
  const node = make('div', { class: 'bar many', id: 'many' });
  const number = make('input', { class: 'short', inputmode: 'numeric', id: 'many-number', 'aria-label': 'Number of the key or of the task' });
  const values = make('input', { id: 'many-values', title: 'Numbers with commas between them; 20-520 is each number from 20 to 520' });
  const edit = (parts) => change({ many: { ...state.many, ...parts }, is_changed: true });
  number.addEventListener('input', () => edit({ number: number.value }));
  values.addEventListener('input', () => edit({ values: values.value }));

  function show() {
    const { command, many } = state;
    node.hidden = command !== 'outcomes';
    number.hidden = many.what === 'tick';
    if (document.activeElement !== number) number.value = many.number;
    if (document.activeElement !== values) values.value = many.values;
  }

  function show_choice() {
    fill(node, choice(SETTINGS, state.many.what, (what) => edit({ what }), { 'aria-label': 'What has other values', id: 'many-what' }), number,
      labelled('values', values, { class: 'field wide' }));
  }

  watch(['command', 'many'], show);
  watch(['shape', 'opened'], show_choice);
  show_choice();
  show();
  return node;
}
