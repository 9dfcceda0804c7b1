// The view Programs: the files, the machine, its session, and the console.
import { ask_for_text, ask_user } from './dialogs.js';
import { line_strip, make_editor } from './editor.js';
import { button, fill, make } from './elements.js';
import { files } from './files.js';
import { help_for_line } from './instructions.js';
import { machine_form } from './machine_form.js';
import { add_assembly, is_module, show_globals } from './modules.js';
import { page_body, title_of } from './pages.js';
import { add_file, edit_text, fault_of_name, file_named, free_name, is_assembly, move_file, remove_file, rename_file, toggle_break } from './project.js';
import { run_pane } from './run.js';
import { session_panel } from './session_panel.js';
import { change, state, watch } from './state.js';
import { load_file, save_as } from './text.js';
import { work_bar } from './work_bar.js';

const editors = new Map();
let opened_before = 0;

const help = make('span', { class: 'line-help', id: 'line-help' });

/** Says what the line does in which the caret is. */
function show_help(line) {
  const told = help_for_line(line);
  fill(help, told ? [make('strong', {}, told.name), `: ${told.effect}`] : '');
}

/** The editor of a file, as it is kept while its tab is there, so that what was typed can be undone. */
function editor_for(name) {
  const known = editors.get(name);
  const text = file_named(name)?.text ?? '';
  if (known) { known.set_text(text); return known; }
  const fresh = make_editor(name, text, {
    on_text: (words) => edit_text(name, words), on_break: (line) => is_assembly(name) && toggle_break(name, line),
      on_caret: (line) => show_help(is_assembly(name) ? line : ''),
  });
  editors.set(name, fresh);
  return fresh;
}

/** Opens a file and puts the caret on a line. */
function show_in_editor(file, line) {
  if (!file_named(file)) return;
  change({ view: 'programs', open: file });
  editor_for(file).go_to(line);
}

async function new_file(begin, end, text) {
  const name = await ask_for_text('A new file', 'Its name; a program ends in .asm, or in .s where it has more forms', free_name(begin, end), (given) => fault_of_name(given));
  if (name) { add_file(name, is_assembly(name) ? text : ''); editor_for(name).focus(); }
}

async function rename_open() {
  const from = state.open;
  const to = await ask_for_text('Rename the file', 'Its new name', from, (given) => fault_of_name(given, from));
  if (to && to !== from) { editors.delete(from); rename_file(from, to); }
}

async function close_file(name) {
  const text = file_named(name)?.text ?? '';
  if (text.trim() !== '' && !await ask_user(`Take ${name} away?`, 'Its text is thrown away, and the machine has it no more.',
    [['Keep it', false], ['Take it away', true]])) return;
  editors.delete(name);
  remove_file(name);
}

function load_files() {
  load_file('', (name, text) => {
    const known = name.replace(/[^A-Za-z0-9._-]/g, '_');
    if (file_named(known)) change({ notice: `There is a file ${known} already; rename one of them first.` });
    else add_file(known, text.replace(/\r\n/g, '\n'));
  });
}

const ON_TAB = { ArrowRight: 1, ArrowLeft: -1 };

function file_tab({ name }, at) {
  const is_open = name === state.open;
  const count = state.errors.get(name)?.length ?? 0;
  const keys = (event) => {
    if (!(event.key in ON_TAB)) return;
    event.preventDefault();
    if (event.altKey) move_file(name, ON_TAB[event.key]);
    else change({ open: state.project.files[(at + ON_TAB[event.key] + state.project.files.length) % state.project.files.length].name });
    document.querySelector('.file-tab [aria-selected="true"]')?.focus();
  };
  return make('span', { class: is_open ? 'file-tab is-open' : 'file-tab', draggable: 'true',
    on_dragstart: (event) => event.dataTransfer.setData('text/plain', name), on_dragover: (event) => event.preventDefault(),
    on_drop: (event) => { event.preventDefault(); drop_tab(event.dataTransfer.getData('text/plain'), at); } },
    button([name, count ? ` !${count}` : ''].join(''), () => change({ open: name }), {
      role: 'tab', 'aria-selected': String(is_open), tabindex: is_open ? '0' : '-1', on_keydown: keys, on_dblclick: rename_open,
      title: `${name}${count ? `: ${count} line(s) in error` : ''}. Arrow keys: other files; Alt and an arrow key: moves it; double click: another name`,
    }),
    is_open ? button('×', () => close_file(name), { class: 'icon', 'aria-label': `Take ${name} away`, title: `Take ${name} away` }) : null);
}

function drop_tab(name, to) {
  const from = state.project.files.findIndex((file) => file.name === name);
  if (from >= 0) move_file(name, to - from);
}

function editor_card() {
  const tabs = make('div', { class: 'file-tabs', role: 'tablist', 'aria-label': 'Files' });
  const body = make('div', { class: 'editor-body' });
  const strip = make('div', { class: 'errors', role: 'status', 'aria-live': 'polite', id: 'errors' });
  const tools = make('div', { class: 'file-tools' },
    button('+ Program', () => new_file('program', '.asm', '        L0              ; call 0 quits\n        SP3\n        SP4\n        SYS\n'),
      { class: 'small', title: 'A new file of assembly' }),
    button('+ Text', () => new_file('text', '', ''), { class: 'small', id: 'new-text', title: 'A new file of text' }),
    button('Load …', load_files, { class: 'small', title: 'Files from your disk' }),
    button('Save', () => state.open && save_as(state.open, file_named(state.open).text), { class: 'small', title: 'The open file to your disk' }),
    button('Rename', rename_open, { class: 'small' }));
  const of_module = make('div', { class: 'bar of-module', id: 'of-module' }, 'The text of a module. ',
    button('As assembly', () => add_assembly(state.open), { class: 'small', id: 'as-assembly', title: 'A program that makes this module again' }),
    button('Its globals', () => show_globals(state.open), { class: 'small', id: 'its-globals', title: 'Which globals it sets, calls, reads and writes' }));

  const show_tabs = () => fill(tabs, state.project.files.map(file_tab));
  function show_open() {
    if (!file_named(state.open)) {
      fill(body, make('p', { class: 'empty' }, state.own !== null ? 'This run has no files: its text is in the panel Session.'
        : 'No file yet. + Program makes one.'));
      return;
    }
    const shown = editor_for(state.open);
    if (body.firstChild !== shown.node || body.childElementCount !== 1) fill(body, shown.node);
    show_marks();
  }
  function show_marks() {
    const errors = state.errors.get(state.open) ?? [];
    const breaks = state.breaks.filter((it) => it.file === state.open).map((it) => it.line);
    if (file_named(state.open)) editor_for(state.open).mark({ errors, breaks });
    const notes = state.notes.get(state.open) ?? [];
    fill(strip, line_strip(errors, notes, (line) => editor_for(state.open).go_to(line)));
    strip.hidden = errors.length + notes.length === 0;
  }

  const show_module = () => { of_module.hidden = is_assembly(state.open) || !is_module(file_named(state.open)?.text ?? ''); };

  watch(['shape'], () => {
    if (state.opened !== opened_before) editors.clear();
    opened_before = state.opened;
    for (const name of editors.keys()) if (!file_named(name)) editors.delete(name);
    show_tabs();
    show_open();
  });
  watch(['open'], () => { show_tabs(); show_open(); });
  watch(['errors', 'notes'], () => { show_tabs(); show_marks(); });
  watch(['breaks'], show_marks);
  watch(['open', 'project'], show_module);
  show_tabs();
  show_open();
  show_module();
  return make('section', { class: 'card editor', 'aria-label': 'Files' }, make('div', { class: 'bar' }, tabs, make('span', { class: 'grow' }), tools),
    of_module, body, strip,
    make('p', { class: 'keys-hint with-help' }, help, make('span', { id: 'editor-keys' },
      'Tab: next column · Esc, Tab: leaves · F9 or a click at a number: breakpoint')));
}

/** The view. */
export function programs_view() {
  const session = session_panel();
  let map = new Map();
  let page_shown = null;
  const panels = { machine: machine_form(), session: session.node };
  const side = make('div', { class: 'side-body' });
  const tabs = make('div', { class: 'side-tabs', role: 'tablist', 'aria-label': 'Machine and session' });
  const show_side = () => {
    const { page } = state.project;
    if (page !== page_shown) { panels.page = page && map.has(page) ? page_body(map, page) : null; page_shown = page; }
    const titles = [['machine', 'Machine'], ['session', state.own === null ? 'Session' : 'Session ✎'],
      ...(panels.page ? [['page', title_of(map.get(page))]] : [])];
    fill(tabs, titles.map(([name, text]) => button(text, () => change({ side: name }),
      { role: 'tab', id: `side-${name}`, 'aria-selected': String(state.side === name) })));
    fill(side, state.own !== null && state.side === 'machine'
      ? make('p', { class: 'note' }, 'The session was changed by hand, so this form does nothing now. The panel Session has the way back.') : null,
        panels[state.side] ?? panels.machine);
  };
  watch(['side', 'own', 'opened'], show_side);
  show_side();
  files().then((known) => { map = known; page_shown = null; show_side(); });
  const show_line = (line) => { change({ side: 'session' }); session.show_line(line); };
  return make('div', { class: 'programs' }, work_bar(), editor_card(), run_pane({ show_line, show_place: show_in_editor }),
    make('section', { class: 'card side', 'aria-label': 'Machine and session' }, tabs, side));
}
