// What the user writes: files, and a machine that is made of them. All of it is plain data, so that it can be kept and sent as JSON.
import { FIRST_ASKED } from './many_runs.js';
import { change, state } from './state.js';

/**
 * A project without files. `kind` is bare, guests or shell. `files` are `{name, text}`; those that end in .asm or .s are programs. `items` are what
 * is put into a machine with a kernel, in their order: `{kind: 'task', id, pri, stack, files}`, `{kind: 'program', file}`,
 * `{kind: 'file', name, file}`, `{kind: 'type', step, text}` and `{kind: 'key', step, hex}`. Numbers are texts, as they are typed. `page` is the page
 * that it was opened from, or an empty text.
 */
export function empty_project() {
  return { title: 'Untitled', kind: 'bare', version: '1', store: '1024', period: '100', steps: '1000', has_reporter: false, page: '', files: [],
    items: [] };
}

/** Whether something is a project, with all parts of the right kinds. */
export function is_project(it) {
  const are_texts = (node, names) => names.every((name) => typeof node[name] === 'string');
  return it !== null && typeof it === 'object' && are_texts(it, ['title', 'kind', 'version', 'store', 'period', 'steps'])
    && ['bare', 'guests', 'shell'].includes(it.kind) && Array.isArray(it.files) && Array.isArray(it.items)
    && it.files.every((file) => file && are_texts(file, ['name', 'text']))
    && it.items.every((item) => item && are_texts(item, ITEM_TEXTS[item.kind] ?? ['none'])
      && (item.kind !== 'task' || (Array.isArray(item.files) && item.files.every((name) => typeof name === 'string'))));
}

const ITEM_TEXTS = { task: ['id', 'pri', 'stack'], program: ['file'], file: ['name', 'file'], type: ['step', 'text'], key: ['step', 'hex'] };

/** Whether a file's name is that of a program. */
export function is_assembly(name) {
  return name.endsWith('.asm') || is_friendly(name);
}

/** Whether a program's text may have more forms than exact assembly. */
export function is_friendly(name) {
  return name.endsWith('.s');
}

/** The name of a file's program in the machine. */
export function program_name(name) {
  return name.replace(/\.(asm|s)$/, '').slice(0, 12);
}

export function file_named(name, project = state.project) {
  return project.files.find((file) => file.name === name) ?? null;
}

/** A name that no file has yet. */
export function free_name(begin, end) {
  for (let n = 1; ; n++) {
    const name = `${begin}${n === 1 ? '' : n}${end}`;
    if (!file_named(name)) return name;
  }
}

/** Why a file may not have this name, or an empty text. */
export function fault_of_name(name, but = '') {
  if (!/^[A-Za-z0-9._-]+$/.test(name)) return 'A name has letters, digits, "-", "." and "_".';
  if (name !== but && file_named(name)) return `There is a file ${name} already.`;
  return '';
}

/** Changes parts of the project; with `is_quiet` the form and the tabs stay as they are. */
export function edit(parts, is_quiet = false) {
  change({ project: { ...state.project, ...parts }, is_changed: true, shape: is_quiet ? state.shape : state.shape + 1 });
}

/** Changes the text of a file. */
export function edit_text(name, text) {
  edit({ files: state.project.files.map((file) => (file.name === name ? { name, text } : file)) }, true);
}

/** Adds a file and opens it. */
export function add_file(name, text) {
  edit({ files: [...state.project.files, { name, text }] });
  change({ open: name });
}

/** Gives a file another name, in the machine too. */
export function rename_file(from, to) {
  const renamed = (name) => (name === from ? to : name);
  const items = state.project.items.map((item) => {
    if (item.kind === 'task') return { ...item, files: item.files.map(renamed) };
    return 'file' in item ? { ...item, file: renamed(item.file) } : item;
  });
  const files = state.project.files.map((file) => (file.name === from ? { ...file, name: to } : file));
  const breaks = state.breaks.map((it) => (it.file === from ? { ...it, file: to } : it));
  change({ open: renamed(state.open), breaks });
  edit({ files, items });
}

/** Takes a file away, and what the machine has of it. */
export function remove_file(name) {
  const files = state.project.files.filter((file) => file.name !== name);
  const items = state.project.items
    .map((item) => (item.kind === 'task' ? { ...item, files: item.files.filter((it) => it !== name) } : item))
    .filter((item) => item.file !== name && (item.kind !== 'task' || item.files.length > 0));
  const at = state.project.files.findIndex((file) => file.name === name);
  if (state.open === name) change({ open: (files[at] ?? files[at - 1])?.name ?? '' });
  change({ breaks: state.breaks.filter((it) => it.file !== name) });
  edit({ files, items });
}

/** Moves a file's tab by so many places. */
export function move_file(name, by) {
  const files = state.project.files.slice();
  const at = files.findIndex((file) => file.name === name);
  if (at + by < 0 || at + by >= files.length) return;
  files.splice(at + by, 0, files.splice(at, 1)[0]);
  edit({ files });
}

/** Sets or takes away the breakpoint at a line. */
export function toggle_break(file, line) {
  const others = state.breaks.filter((it) => it.file !== file || it.line !== line);
  change({ breaks: others.length < state.breaks.length ? others : [...others, { file, line }] });
}

/** Opens a project in place of the one that is there. */
export function open_project(project, { own = null, command = 'run', many = FIRST_ASKED, view = 'programs' } = {}) {
  const open = project.files[0]?.name ?? '';
  change({
    project, own, command, many, open, opened: state.opened + 1, shape: state.shape + 1, side: own !== null ? 'session'
      : project.page?.startsWith('course/') ? 'page' : 'machine', run: null, breaks: [], step: 0, moment: null, story: null,
    cursor: 0, is_changed: false, view,
  });
}
