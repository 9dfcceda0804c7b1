// The debugger's short words, typed one after another. The program takes all of them from the beginning each time, and what is new is shown.
import { ask, newest, Stopped } from './asking.js';
import { file_word, no_file_word, what_is_wrong, word } from './bundle.js';
import { button, fill, make } from './elements.js';
import { program_map_of } from './program_map.js';
import { file_named } from './project.js';
import { screen_text } from './screen.js';
import { watch } from './state.js';
import { made_of, session_now } from './work.js';

const only_newest_words = newest();

/** What the program writes for words, one a line, on the run of a session, as a Promise of its text. */
async function told_of(session, words) {
  const made = made_of(session);
  const map = made ? await program_map_of(made) : '';
  const sources = made ? [...new Set(made.programs.map(({ file }) => file))] : [];
  const bundle = file_word('session', session) + (map === '' ? word('-') : file_word('map', map)) + file_word('words', words.map((it) => `${it}\n`).join(''))
    + sources.map((name) => { const file = file_named(name, made.project); return file ? file_word(name, file.text) : no_file_word(name); }).join('');
  const given = await ask('tripos_show', ['words'], bundle, 'the words are done from the beginning');
  if (given.status !== 0) throw new Error(what_is_wrong(given.text));
  return given.text;
}

/** The part of the view Steps in which short words are typed. */
export function typed_words() {
  const told = make('pre', { class: 'output', tabindex: '0', id: 'typed-words-told', 'aria-label': 'What the words have shown' });
  const line = make('input', { id: 'typed-word', autocomplete: 'off', spellcheck: 'false', 'aria-label': 'A short word of the debugger',
    placeholder: 'a word, as s 5 or bt; h shows all' });
  let words = [];

  async function show() {
    try {
      const text = await only_newest_words(async () => (words.length > 0 ? told_of(await session_now(), words) : ''));
      if (text === null) return;
      fill(told, screen_text(text.slice(-20000)));
      told.scrollTop = told.scrollHeight;
    } catch (error) {
      if (!(error instanceof Stopped)) fill(told, make('span', { class: 'bad' }, `✕ ${error.message}`));
    }
  }

  function take() {
    const typed = line.value.trim();
    line.value = '';
    if (typed === '') return;
    words = typed === 'quit' ? [] : [...words, typed];
    show();
  }

  line.addEventListener('keydown', (event) => {
    event.stopPropagation();
    if (event.key === 'Enter') take();
  });
  watch(['made', 'own'], () => { words = []; fill(told); });
  return make('details', { class: 'typed-words', id: 'typed-words' }, make('summary', {}, 'Short words'),
    make('p', { class: 'help' }, 'The words of bin/debug, done from the beginning of the run. They move a machine of their own.'),
    told, make('div', { class: 'bar' }, line, button('Do it', take), button('Begin anew', () => { words = []; show(); })));
}
