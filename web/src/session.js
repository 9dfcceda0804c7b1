// The session of a project, as the tool makes it of a bundle (docs/manual/bundles.md), and what is wrong in the project.
import { ask } from './asking.js';
import { file_word, no_file_word, word } from './bundle.js';
import { REFUSED } from './plain_text.js';
import { file_named, is_assembly, program_name } from './project.js';

const NOTE = 'session: note: ';

/**
 * The session of a project, as a Promise of `{text, problem, notes, programs}`. Where it can't be made, `text` is null and `problem` has the
 * words and where: a field of the form, `item 3`, or `{file, line}`. `programs` has for each program its file and its name.
 */
export async function session_of(project) {
  const { bundle, items } = request_of(project);
  const given = await ask('tripos_tools', ['session'], bundle, 'the session is made');
  if (given.status === REFUSED) return { text: null, problem: problem_of(given.text, items), notes: [], programs: [] };
  if (given.status !== 0) throw new Error(`The session could not be made (status ${given.status}).`);
  const { notes, text } = parts_of(given.text);
  return { text, problem: null, notes, programs: programs_put_in(project) };
}

/** The bundle of a project, and which of its items are in the bundle. */
function request_of(project) {
  const { kind, version, store, period, steps, has_reporter } = project;
  const head = [kind, version, store, period, kind === 'shell' && has_reporter ? '-d' : '-', steps].map(field).join('');
  if (kind === 'bare') return { bundle: head + bare_files(project).map((name) => path(name, project)).join(''), items: [] };
  const items = project.items.map((item, at) => ({ item, at })).filter(({ item }) => item.kind !== 'program' || kind === 'shell');
  return { bundle: head + items.map(({ item }) => WORDS_OF[item.kind](item, project)).join(''), items: items.map(({ at }) => at) };
}

const WORDS_OF = {
  task: ({ id, pri, stack, files }, project) => ['task', id, pri, stack].map(field).join('') + files.map((file) => path(file, project)).join(''),
  program: ({ file }, project) => word('program') + path(file, project),
  file: ({ name, file }, project) => word('file') + word(name) + path(file, project),
  type: ({ step, text }) => word('type') + field(step) + word(text),
  key: ({ step, hex }) => ['key', step, hex].map(field).join(''),
};

function bare_files({ files }) {
  return files.map(({ name }) => name).filter(is_assembly);
}

// what is said of an empty field is that it is none
function field(text) {
  return word(text || 'none');
}

function path(name, project) {
  const file = file_named(name, project);
  return file ? file_word(name, file.text) : no_file_word(name);
}

/** The notes and the session of what the tool gives. */
function parts_of(given) {
  const lines = given.split('\n');
  const count = lines.findIndex((line) => !line.startsWith(NOTE));
  return { notes: lines.slice(0, count).map((line) => line.slice(NOTE.length)), text: lines.slice(count).join('\n') };
}

/** What is wrong, and where, of what the tool says. The first line has a status and the place, and the second one the words. */
function problem_of(said, items) {
  const [head, first = ''] = said.split('\n');
  const place = head.replace(/^\* [0-9]+ /, '');
  const words = first.replace(/^session: (item [0-9]+ \(.*?\): )?/, '').replace('; ./session --help has all words', '');
  const at = /^([^ :]+):([0-9]+): (.*)$/.exec(words);
  if (at) return { where: { file: at[1], line: Number(at[2]) }, words: `${at[1]}, line ${at[2]}: ${at[3]}.` };
  const item = /^item ([0-9]+)$/.exec(place);
  return { where: item ? `item ${items[item[1] - 1]}` : place, words: `${words}.` };
}

/** The programs of a project, each once. */
function programs_put_in(project) {
  const names = project.kind === 'bare' ? bare_files(project)
    : project.items.flatMap((item) => (item.kind === 'task' ? item.files : item.kind === 'program' && project.kind === 'shell' ? [item.file] : []));
  return [...new Set(names)].map((file) => ({ file, name: program_name(file) }));
}
