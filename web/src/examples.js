// The examples of the repository as projects.
import { project_of_words, words_of_command } from './command.js';
import { empty_project } from './project.js';

/** What each example shows, and its names in order, from the list in the manual. */
export function list_of_examples(map) {
  const rows = [...(map.get('docs/manual/README.md') ?? '').matchAll(/^\| `([a-z/-]+)` \| (.*) \|$/gm)];
  return rows.map(([, name, shows]) => ({ name, shows: shows.replace(/\[([^\]]*)\]\([^)]*\)/g, '$1').replace(/`/g,
    '') })).filter(({ name }) => files_of_example(map, name).length > 0);
}

function files_of_example(map, name) {
  return [...map.keys()].filter((path) => path.startsWith(`examples/${name}/`));
}

/** The words of the command that makes an example's session. */
function words_of_make(make) {
  const line = make.replace(/\\\n/g, ' ').split('\n').find((it) => it.startsWith('./session '));
  return line ? words_of_command(line).slice(1) : [];
}

/** An example as `{project, own, command}`, ready to be opened; `own` is the text of its run where no form makes it. */
export function example_named(map, name) {
  const text_of = (path) => map.get(path);
  const command = (map.get(`examples/${name}/args`) ?? 'run').trim().split(' ')[0];
  const session = map.get(`examples/${name}/session`);
  const title = `Example ${name}`;
  if (session === undefined) {
    const ring = ['perfect', 'lossy', 'hostile'].map((link) => map.get(`examples/${name}/${link}`)).find((it) => it !== undefined);
    const files = files_of_example(map,
      name).filter((path) => path.endsWith('.asm')).map((path) => ({ name: path.replace(/.*\//, ''), text: map.get(path) }));
    return { project: { ...empty_project(), title, files }, own: ring ?? '', command: 'run' };
  }
  const make = map.get(`examples/${name}/make`);
  const steps = /^GO ([0-9]+)/m.exec(session)[1];
  const store = /^STORE ([0-9]+)/m.exec(session)[1];
  const version = /^TRIPOS ([0-9]+)/.exec(session)[1];
  const words = make === undefined ? ['bare', '-s', store, '-v', version, steps, `examples/${name}/program.asm`] : words_of_make(make);
  const project = project_of_words(words, text_of, title);
  return { project: project ?? { ...empty_project(), title }, own: project ? null : session, command };
}
