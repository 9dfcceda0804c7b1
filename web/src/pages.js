// A page of the manual or the course: its HTML, where its links lead, and the runs in it, which can be opened.
import { project_of_words, words_of_command } from './command.js';
import { button, make } from './elements.js';
import { example_named } from './examples.js';
import { markdown } from './markdown.js';
import { open_instead } from './opening.js';
import { change } from './state.js';

/** The title of a page: its first heading. */
export function title_of(text) {
  return /^# (.*)$/m.exec(text)?.[1].replace(/`/g, '') ?? '';
}

/** A path that a link in a page leads to: `{path, anchor}`. */
function resolved(from, address) {
  const [relative, anchor = ''] = address.split('#');
  if (relative === '') return { path: from, anchor };
  const parts = from.split('/').slice(0, -1);
  for (const part of relative.split('/')) if (part === '..') parts.pop(); else if (part !== '.') parts.push(part);
  return { path: parts.join('/'), anchor };
}

/** Where a path is shown here, or null. */
function target_of(map, path) {
  const example = /^examples\/([a-z-]+(?:\/mended)?)(\/|$)/.exec(path);
  if (example) return `examples/${example[1]}`;
  if (map.has(path)) return path;
  return map.has(`${path}/README.md`) ? `${path}/README.md` : null;
}

/** The commands of ./session in a text of the manual: each as words after ./session. */
function session_commands(text) {
  return [...text.replace(/\\\n */g, ' ').matchAll(/^(?:\$ )?\(?\.\/session ((?:bare|guests|shell) [^\n]*)/gm)].map(([,
    words]) => words_of_command(words).filter((word, at, all) => word !== '-m' && all[at - 1] !== '-m'));
}

/** A project that was opened from a page; a lab's file `answers` is among its files, if there is one. */
function with_answers(map, path, project) {
  const answers = path.startsWith('course/') ? map.get(path.replace(/[^/]*$/, 'answers')) : undefined;
  return { ...project, page: path, files: answers === undefined ? project.files : [...project.files, { name: 'answers', text: answers }] };
}

/** Puts a button after each block of a page that has the command of a session, which opens that session. */
function add_openers(body, map, path) {
  const known = new Map();
  const folder = path.replace(/[^/]*$/, '');
  const text_of = (name) => known.get(name) ?? map.get(name) ?? map.get(folder + name) ?? map.get(`${folder}tests/${name}`);
  for (const block of body.querySelectorAll('pre')) {
    const text = block.textContent;
    if (/\.(asm|s)$|^[a-z]+$/.test(block.dataset.info ?? '')) known.set(block.dataset.info, text);
    for (const [, parts, name] of text.matchAll(/^\$ cat ([^|>\n]*) > (\S+)$/gm)) {
      const texts = parts.trim().split(/ +/).map(text_of);
      if (texts.every((it) => it !== undefined)) known.set(name, texts.join(''));
    }
    const projects = session_commands(text).map((words) => (words.some((word) => word.endsWith('.s')) ? null
      : project_of_words(words, text_of, title_of(map.get(path))))).filter(Boolean);
    const command = /\.\/tripos (dump|trace)/.exec(text)?.[1] ?? 'run';
    const example = /\bexamples\/([a-z-]+(?:\/mended)?)\/session/.exec(text)?.[1];
    if (projects.length === 0 && example && map.has(`examples/${example}/session`)) {
      block.after(make('p', { class: 'opener' }, button(`▶ Open the example ${example}`,
        () => open_instead({ ...example_named(map, example), command }), { class: 'small' })));
    }
    if (projects.length > 0) block.after(make('p', { class: 'opener' }, projects.slice(0, 3).map((project, at) =>
      button(projects.length > 1 ? `▶ Open run ${at + 1} in Programs` : '▶ Open this run in Programs',
        () => open_instead({ project: with_answers(map, path, project), own: null, command }), { class: 'small' }))));
  }
}

/** The project of a lab that names no command: its files, and its first test with them as a task; null where it has no program. */
function project_of_lab(map, path) {
  const folder = path.replace(/[^/]*$/, '');
  const named = (part) => [...map.keys()].filter((it) => it.startsWith(folder + part) && it.endsWith('.asm')
    && !it.slice((folder + part).length).includes('/'));
  const [own, tests] = [named(''), named('tests/')];
  if (own.length === 0) return null;
  const project = project_of_words(['guests', '-v', '2', '100000', 'task', '5', '100', '200', ...own, ...tests.slice(0, 1)], (name) => map.get(name),
    title_of(map.get(path)));
  return { ...with_answers(map, path, project), files: [...project.files, ...tests.slice(1).map((it) => ({ name: it.replace(/.*\//, ''), text: map.get(it) }))] };
}

/** A page as HTML, with a button after each run that can be opened. */
export function page_body(map, path) {
  const body = make('article', { class: 'page' });
  const link = (address) => {
    if (/^[a-z]+:/.test(address)) return address;
    const { path: to, anchor } = resolved(path, address);
    const target = target_of(map, to);
    return target && `#page=${target}${anchor ? `:${anchor}` : ''}`;
  };
  body.innerHTML = markdown(map.get(path), { link });
  add_openers(body, map, path);
  const lab = path.startsWith('course/') && !body.querySelector('.opener') ? project_of_lab(map, path) : null;
  if (lab) body.querySelector('h1')?.after(make('p', { class: 'opener' },
    button('▶ Open its files in Programs', () => open_instead({ project: lab, own: null, command: 'run' }), { class: 'small' })));
  else if (body.querySelector('.opener')) body.querySelector('h1')?.after(make('p', { class: 'help' },
    'Lines that begin with $ are commands of a Linux shell. Here you need none: the buttons below them open the run.'));
  body.addEventListener('click', (event) => {
    const address = event.target.closest('a')?.getAttribute('href') ?? '';
    if (!address.startsWith('#page=')) return;
    event.preventDefault();
    const [to, anchor] = address.slice(6).split(':');
    change({ view: 'learn', page: anchor ? `${to}:${anchor}` : to });
  });
  return body;
}
