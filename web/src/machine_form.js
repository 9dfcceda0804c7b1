// The form of the machine: which one it is, and what is put into it.
import { button, choice, fill, labelled, make } from './elements.js';
import { edit, is_assembly, program_name } from './project.js';
import { state, watch } from './state.js';

const KINDS = [['bare', 'bare: one program, no kernel'], ['guests', 'guests: a kernel and tasks'], ['shell', 'shell: with files and a shell']];

function number_field(label, name, help) {
  const input = make('input', { value: state.project[name], inputmode: 'numeric', class: 'number', 'data-field': name, title: help });
  input.addEventListener('input', () => edit({ [name]: input.value.trim() }, true));
  return labelled(label, input);
}

function set_kind(kind) {
  const before = state.project.kind;
  const parts = { kind };
  // what ./session takes where nothing is said
  if (before === 'bare' && kind !== 'bare' && state.project.store === '1024') parts.store = '16384';
  if (kind === 'bare' && state.project.store === '16384') parts.store = '1024';
  const first = state.project.files.find((file) => is_assembly(file.name));
  if (kind === 'guests' && state.project.items.length === 0 && first) parts.items = [new_task(first.name)];
  if (kind === 'shell' && state.project.items.length === 0 && first) parts.items = [{ kind: 'program', file: first.name }];
  edit(parts);
}

function new_task(file) {
  const tasks = state.project.items.filter((item) => item.kind === 'task');
  const ids = new Set(tasks.map((item) => Number(item.id)));
  const priorities = new Set(tasks.map((item) => Number(item.pri)));
  let id = 5;
  while (ids.has(id)) id += 1;
  let pri = 100;
  while (priorities.has(pri)) pri += 100;
  return { kind: 'task', id: String(id), pri: String(pri), stack: '50', files: [file] };
}

function edit_item(at, parts, is_quiet = true) {
  edit({ items: state.project.items.map((item, i) => (i === at ? { ...item, ...parts } : item)) }, is_quiet);
}

function add_item(item) {
  edit({ items: [...state.project.items, item] });
}

function item_field(at, name, properties) {
  const input = make('input', { value: state.project.items[at][name], ...properties });
  input.addEventListener('input', () => edit_item(at, { [name]: name === 'text' ? input.value : input.value.trim() }));
  return input;
}

function file_choice(at, chosen, names, act, label) {
  const options = names.includes(chosen) ? names : [chosen, ...names];
  return choice(options.map((name) => [name, name || '(no file)']), chosen, act, { 'aria-label': label });
}

function remove_button(at, what) {
  return button('×', () => edit({ items: state.project.items.filter((_, i) => i !== at) }),
    { class: 'icon', 'aria-label': `Take ${what} away`, title: `Take ${what} away` });
}

function swap_button(at, other, what) {
  const swap = () => {
    const items = state.project.items.slice();
    [items[at], items[other]] = [items[other], items[at]];
    edit({ items });
  };
  return button('↑', swap, { class: 'icon', disabled: other < 0, 'aria-label': `${what} comes earlier`, title: 'Comes earlier' });
}

function task_fields(item, at, programs) {
  const is_second = state.project.version === '2';
  const files = item.files.map((name, i) => make('span', { class: 'pair' },
    file_choice(at, name, programs, (file) => edit_item(at, { files: item.files.map((it, k) => (k === i ? file : it)) }, false),
      `Program of task ${item.id}`),
    item.files.length > 1 ? button('×', () => edit_item(at, { files: item.files.filter((_, k) => k !== i) }, false),
      { class: 'icon', 'aria-label': `Take ${name} from task ${item.id}` }) : null));
  return make('div', { class: 'item', 'data-item': String(at) },
    labelled('task', item_field(at, 'id', { class: 'short', inputmode: 'numeric' })),
    labelled('priority', item_field(at, 'pri', { class: 'short', inputmode: 'numeric' })),
    labelled('stack', item_field(at, 'stack', { class: 'short', inputmode: 'numeric', title: 'The highest index of its stack, 20 to 100000' })),
    make('span', { class: 'files' }, files,
      is_second && item.files.length < 8 && programs.length > 1 ? button('+ file',
        () => edit_item(at, { files: [...item.files, programs.find((it) => !item.files.includes(it)) ?? programs[0]] }, false), { class: 'small' })
        : null),
    remove_button(at, `task ${item.id}`));
}

function program_fields(item, at, programs) {
  return make('div', { class: 'item', 'data-item': String(at) },
    file_choice(at, item.file, programs, (file) => edit_item(at, { file }, false), 'Program of the shell'),
    make('span', { class: 'means' }, `typed as ${program_name(item.file)}`), remove_button(at, item.file));
}

function text_fields(item, at) {
  return make('div', { class: 'item', 'data-item': String(at) },
    labelled('name', item_field(at, 'name', { class: 'name', maxlength: '12' })),
    labelled('with', file_choice(at, item.file, state.project.files.map((it) => it.name), (file) => edit_item(at, { file }, false),
      'Text of the file')),
    remove_button(at, `file ${item.name}`));
}

function typed_fields(item, at) {
  const earlier = state.project.items.slice(0, at).findLastIndex((it) => it.kind === 'type' || it.kind === 'key');
  return make('div', { class: 'item', 'data-item': String(at) },
    labelled('step', item_field(at, 'step', { class: 'middle', inputmode: 'numeric' })),
    item.kind === 'type'
      ? make('label', { class: 'field wide' }, make('span', {}, 'line'), item_field(at, 'text', { class: 'line' }))
      : labelled('key', item_field(at, 'hex', { class: 'short', maxlength: '2', title: 'Two hex digits: 0a is the end of a line, 41 is A' })),
    swap_button(at, earlier, 'This'), remove_button(at, item.kind === 'type' ? 'this line' : 'this key'));
}

function group(title, help, kinds, row, add) {
  const rows = state.project.items.map((item, at) => (kinds.includes(item.kind) ? row(item, at) : null));
  return make('fieldset', {}, make('legend', {}, title), rows.some(Boolean) ? rows : make('p', { class: 'help' }, help),
    make('div', { class: 'adds' }, add));
}

function next_step() {
  return String(Math.max(0, ...state.project.items.filter((it) => 'step' in it).map((it) => Number(it.step) || 0)) + 200);
}

function kernel_parts() {
  const { project } = state;
  const names = project.files.map((file) => file.name);
  const programs = names.filter(is_assembly);
  const texts = names.filter((name) => !is_assembly(name));
  const first = programs[0] ?? '';
  return [
    group('Tasks', 'No task: add one for each program that runs from the beginning.', ['task'], (item, at) => task_fields(item, at, programs),
      button('+ Task', () => add_item(new_task(first)), { class: 'small', disabled: !first })),
    project.kind === 'shell'
      ? group('Programs of the shell', 'Programs that can be started by their names.', ['program'], (item, at) => program_fields(item, at, programs),
        button('+ Program', () => add_item({ kind: 'program',
          file: programs.find((it) => !project.items.some((item) => item.file === it)) ?? first }), { class: 'small', disabled: !first }))
      : null,
    group('Files', 'Files of text on the disc of the machine.', ['file'], text_fields,
      button('+ File', () => add_item({ kind: 'file', name: (texts[0] ?? first).replace(/\..*/, '').slice(0, 12) || 'file',
        file: texts[0] ?? first }), { class: 'small', disabled: names.length === 0 })),
    group('Typed at the keyboard', 'Lines and single keys, each at its step.', ['type', 'key'], typed_fields,
      [button('+ Line', () => add_item({ kind: 'type', step: next_step(), text: '' }), { class: 'small' }),
        button('+ Key', () => add_item({ kind: 'key', step: next_step(), hex: '41' }), { class: 'small' })]),
  ];
}

function draw_form(node) {
  const { project } = state;
  const is_kernel = project.kind !== 'bare';
  const reporter = make('input', { type: 'checkbox', checked: project.has_reporter, on_change: () => edit({ has_reporter: reporter.checked }) });
  fill(node,
    make('div', { class: 'fields' },
      labelled('machine', choice(KINDS, project.kind, set_kind, { 'data-field': 'kind' })),
      labelled('version', choice([['1', '1'], ['2', '2']], project.version, (version) => edit({ version }), { 'data-field': 'version' })),
      number_field('steps', 'steps', 'The most steps that the machine takes, 0 to 4000000000'),
      number_field('store', 'store', 'Words of 32 bits: an even number from 1024 up'),
      is_kernel ? number_field('tick', 'period', 'So many steps are a tick of the clock, 1 to 1000000') : null,
      project.kind === 'shell' ? make('label', { class: 'check' }, reporter, ' task 2 reports faults') : null),
    is_kernel ? kernel_parts()
      : make('p', { class: 'help' },
        'The files that end in .asm or .s are put in, in the order of their tabs, the first one at byte 800. Anything else is left out.'));
}

function mark_problem(node) {
  for (const marked of node.querySelectorAll('.wrong')) { marked.classList.remove('wrong'); marked.removeAttribute('aria-invalid'); }
  const where = state.made?.problem?.where;
  if (typeof where !== 'string') return;
  const found = where.startsWith('item ') ? node.querySelector(`[data-item="${where.slice(5)}"]`) : node.querySelector(`[data-field="${where}"]`);
  found?.classList.add('wrong');
  found?.setAttribute('aria-invalid', 'true');
}

/** The form, with what is wrong in it, and notes. */
export function machine_form() {
  const node = make('form', { class: 'machine', 'aria-label': 'The machine', on_submit: (event) => event.preventDefault() });
  const problem = make('div', { class: 'problem', role: 'status', 'aria-live': 'polite', id: 'problem' });
  const show_problem = () => {
    mark_problem(node);
    const { made } = state;
    fill(problem, made?.problem ? make('p', { class: 'bad' }, make('strong', {}, '! '), made.problem.words) : null,
      (made?.notes ?? []).map((note) => make('p', { class: 'note' }, 'Note: ', note)));
  };
  watch(['shape'], () => { draw_form(node); show_problem(); });
  watch(['made'], show_problem);
  draw_form(node);
  return make('div', {}, problem, node);
}
