// Commands of ./session, as the manual, the labs and the examples have them, made into projects.
import { empty_project, is_assembly } from './project.js';

/** The words of a line of the shell: parted at blanks, with quotes taken away, and ended by a pipe or a redirection. */
export function words_of_command(line) {
  const words = [];
  for (const [, single, double, plain] of line.matchAll(/'([^']*)'|"([^"]*)"|([^\s'"]+)/g)) {
    if (plain !== undefined && /^[|>;)]/.test(plain)) break;
    words.push(single ?? double ?? plain.replace(/[;)]$/, ''));
  }
  return words;
}

function take_options(words, project) {
  while (words[0]?.startsWith('-')) {
    const option = words.shift();
    if (option === '-d') { project.has_reporter = true; continue; }
    const value = words.shift();
    if (option === '-s') project.store = value;
    else if (option === '-t') project.period = value;
    else if (option === '-v') project.version = value;
  }
}

/**
 * The project of the words of a command, beginning with bare, guests or shell, or null where it has others. `text_of(path)` gives the text of
 * a file that it names, or undefined, and then there is none too.
 */
export function project_of_words(given, text_of, title) {
  const words = given.slice();
  const kind = words.shift();
  if (!['bare', 'guests', 'shell'].includes(kind)) return null;
  const project = { ...empty_project(), title, kind, store: kind === 'bare' ? '1024' : '16384' };
  take_options(words, project);
  project.steps = words.shift() ?? '';
  let is_whole = /^[0-9]+$/.test(project.steps);
  const add = (path) => {
    const text = text_of(path);
    const name = path.replace(/.*\//, '');
    if (text === undefined) is_whole = false;
    else if (!project.files.some((file) => file.name === name)) project.files.push({ name, text });
    return name;
  };
  const take_item = {
    task() {
      const [id, pri, stack] = words.splice(0, 3);
      const files = [];
      while (words.length > 0 && is_assembly(words[0])) files.push(add(words.shift()));
      project.items.push({ kind: 'task', id, pri, stack, files });
      if (files.length === 0) is_whole = false;
    },
    program: () => project.items.push({ kind: 'program', file: add(words.shift()) }),
    file: () => project.items.push({ kind: 'file', name: words.shift(), file: add(words.shift()) }),
    type: () => project.items.push({ kind: 'type', step: words.shift(), text: words.shift() }),
    key: () => project.items.push({ kind: 'key', step: words.shift(), hex: words.shift() }),
  };
  if (kind === 'bare') while (words.length > 0) add(words.shift());
  while (is_whole && words.length > 0) {
    const item = take_item[words.shift()];
    if (item) item(); else is_whole = false;
  }
  return is_whole && project.files.length > 0 ? project : null;
}
