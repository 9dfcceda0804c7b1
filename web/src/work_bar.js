// The row over the view Programs: the name of the work, and what can be done with all of it.
import { ask_user } from './dialogs.js';
import { button, fill, make } from './elements.js';
import { address_of_work, earlier_work, LONGEST_ADDRESS, work_of_json } from './memory.js';
import { bring_back, new_work, open_instead, save_work } from './opening.js';
import { edit, empty_project } from './project.js';
import { kind_of_text } from './session_panel.js';
import { change, state, watch } from './state.js';
import { load_file } from './text.js';

/** The work that a file has: what Save has written, or the text of a session, a ring or a saved machine; null where it has none. */
function work_of_file(name, text) {
  if (kind_of_text(text)) return { project: { ...empty_project(), title: name }, own: text, command: 'run' };
  return work_of_json(text);
}

function load_work() {
  load_file('', (name, text) => {
    const work = work_of_file(name, text);
    if (work) open_instead(work, { is_run: false });
    else change({ notice: `${name} has no work of this page, and is no session, saved machine or ring.` });
  });
}

async function copy_link(said) {
  const part = await address_of_work();
  if (part.length > LONGEST_ADDRESS) {
    change({ notice: 'This work is too long for an address; Save all writes it to a file.' });
    return;
  }
  const address = `${location.href.split('#')[0]}#${part}`;
  try {
    await navigator.clipboard.writeText(address);
    fill(said, location.protocol === 'file:' ? 'Copied. It opens in this copy of the page; for another copy, put the part from # on after its address.' : 'Copied: the address has the whole run.');
  } catch {
    ask_user('The link', make('textarea', { class: 'session', readonly: true, 'aria-label': 'The link' }, address), [['Close', null]]);
  }
  setTimeout(() => fill(said), 6000);
}

/** The row. */
export function work_bar() {
  const title = make('input', { class: 'title', 'aria-label': 'Name of the work', id: 'title', value: state.project.title });
  title.addEventListener('input', () => edit({ title: title.value }, true));
  const said = make('span', { class: 'note', role: 'status' });
  const back = button('Earlier work', bring_back, { class: 'small', id: 'earlier', title: 'Back to what was here before this was opened' });
  const changed = make('span', { class: 'means' });
  const show = () => {
    document.title = `${state.project.title} – Kijolpe`;
    if (document.activeElement !== title) title.value = state.project.title;
    back.hidden = earlier_work() === null;
    fill(changed, state.is_changed ? 'changed; kept in this browser' : '');
  };
  watch(['shape', 'is_changed', 'has_earlier', 'project'], show);
  show();
  return make('div', { class: 'bar work-bar' }, title, changed, said, make('span', { class: 'grow' }),
    button('New', new_work, { class: 'small', id: 'new' }), button('Open …', load_work,
    { class: 'small', title: 'Work, a session or a saved machine from your disk' }),
    button('Save all', save_work, { class: 'small', title: 'All of this work to a file' }),
      button('Copy link', () => copy_link(said), { class: 'small', id: 'link', title: 'An address that has the whole run' }), back);
}
