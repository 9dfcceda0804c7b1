// The text of the session: shown, copied, changed by hand, saved and loaded.
import { button, fill, make } from './elements.js';
import { change, state, watch } from './state.js';
import { load_file, save_as } from './text.js';
import { ask_user } from './dialogs.js';
import { known_session } from './work.js';

const FIRST_LINES = [['TRIPOS-IMAGE ', 'a saved machine'], ['TRIPOS ', 'a session'], ['RING ', 'a ring of two machines']];

/** What a text is by its first line, in words, or null. */
export function kind_of_text(text) {
  return FIRST_LINES.find(([begin]) => text.startsWith(begin))?.[1] ?? null;
}

async function back_to_form() {
  if (await ask_user('Go back to the form?', 'What you have changed by hand is thrown away, and the session is made of the form again.',
    [['Keep my text', false], ['Go back', true]]))
    change({ own: null });
}

function load_text() {
  load_file('', async (name, text) => {
    if (state.own !== null && !await ask_user(`Load ${name}?`, 'It takes the place of the text that is here.',
      [['Cancel', false], ['Load it', true]])) return;
    if (kind_of_text(text)) change({ own: text, side: 'session', is_changed: true });
    else change({ notice: `${name} is no session: its first line is no "TRIPOS", "RING" or "TRIPOS-IMAGE".` });
  });
}

/** The panel; `show_line(line)` of what comes back puts a line in sight. */
export function session_panel() {
  const area = make('textarea', { class: 'session', spellcheck: 'false', wrap: 'off', 'aria-label': 'The text of the session', id: 'session' });
  const said = make('p', { class: 'said', role: 'status' });
  const copied = make('span', { role: 'status', class: 'note' });
  const back = button('Back to the form', back_to_form, { id: 'to-form' });
  area.addEventListener('input', () => change({ own: area.value, is_changed: true }));

  function show() {
    const text = known_session();
    if (document.activeElement !== area || state.own === null) area.value = text ?? '';
    back.hidden = state.own === null;
    fill(said, state.own !== null
      ? [make('strong', {}, 'Your own text. '),
        `It is ${kind_of_text(state.own) ?? 'no session: its first line is that of none'}, and is run as it is; the form and the files do nothing until you go back.`]
      : text === null ? (state.made?.problem ? ['No session yet: ', state.made.problem.words] : 'It is being made.')
        : 'Made of the form and the files. You may change it by hand.');
  }

  async function copy() {
    try {
      await navigator.clipboard.writeText(area.value);
    } catch {
      area.select();
      document.execCommand('copy');
    }
    fill(copied, 'Copied.');
    setTimeout(() => fill(copied), 2000);
  }

  watch(['own', 'made', 'project'], show);
  show();
  return {
    node: make('div', { class: 'session-panel' }, said, area,
      make('div', { class: 'bar' }, button('Copy', copy), button('Save', () => save_as('session', area.value)), button('Load …', load_text), back,
        copied)),
    show_line(line) {
      const lines = area.value.split('\n');
      const begin = lines.slice(0, line - 1).reduce((sum, it) => sum + it.length + 1, 0);
      area.focus();
      area.setSelectionRange(begin, begin + (lines[line - 1] ?? '').length);
      area.scrollTop = Math.max(0, (line - 4) * (area.scrollHeight / Math.max(1, lines.length)));
    },
  };
}
