// Modules that the user has loaded: the assembly that makes one again, and the globals that it sets and uses.
import { ask, Stopped } from './asking.js';
import { file_word, word } from './bundle.js';
import { show_sheet } from './dialogs.js';
import { make } from './elements.js';
import { add_file, file_named, program_name } from './project.js';
import { change, state } from './state.js';

/** Whether a text begins as that of a module with a hunk. */
export function is_module(text) {
  return /^\s*0*3e8\s/i.test(text);
}

/** Adds the assembly of a module to the files, and opens it. Where the assembler does not make the whole module of it, that is said. */
export function add_assembly(name) {
  return with_answer('unasm', name, (text) => {
    const why = why_no_program(text);
    if (why) { change({ notice: `${name} stays a module: ${why}.` }); return; }
    const own = free_name_of(name);
    add_file(own, text);
    change({ notice: `${own} makes the module of ${name} again${last_word(text)}, and can be chosen as a program.` });
  });
}

/** Shows which globals a module sets and uses. */
export function show_globals(name) {
  return with_answer('needs', name, (text) => show_sheet(`The globals of ${name}`, make('pre', { class: 'output' }, text)));
}

/** Why the text of a module's assembly is none of a program, or nothing. */
function why_no_program(text) {
  const hunks = text.match(/^; HUNK .*$/gm) ?? [];
  if (hunks.length !== 1) return `a program of the page has one hunk, and it has ${hunks.length || 'none'}`;
  const [, reason] = /, as words: (.*)$/.exec(hunks[0]) ?? [];
  return reason ?? '';
}

/** What is other in the module that assembly makes, or nothing: a compiler may put another number at the end of the global table. */
function last_word(text) {
  const [, last] = /^; LAST (.*)$/m.exec(text) ?? [];
  return last ? `, but for its last word, ${last}` : '';
}

/** A name for the assembly of a module that no file has. */
function free_name_of(name) {
  const begin = program_name(name.replace(/\.module$/, ''));
  for (let n = 1; ; n++) {
    const own = `${begin}${n === 1 ? '' : n}.asm`;
    if (!file_named(own)) return own;
  }
}

/** The names of globals, as a word of a bundle: those of the first file NAME.set, which has lines `SET Gname number`. */
function names_word() {
  const table = state.project.files.find((file) => file.name.endsWith('.set'));
  if (!table) return word('-');
  const names = [...table.text.matchAll(/^[ \t]*SET[ \t]+G([A-Za-z0-9]+)[ \t]+([0-9]+)/gm)].map(([, name, number]) => `${number} ${name}\n`);
  return file_word(table.name, names.join(''));
}

/** Acts on what a tool gives of a module, or says what is wrong in it. */
async function with_answer(tool, name, act) {
  const { text } = file_named(name);
  try {
    const given = await ask('tripos_tools', [tool], names_word() + file_word(name, text), 'the module is read');
    if (given.status === 0) { act(given.text); return; }
    const wrong = await ask('tripos_show', ['errors'], word('module') + file_word(name, text), 'what is wrong is looked for');
    change({ notice: wrong.text.split('\n')[0] });
  } catch (error) {
    if (!(error instanceof Stopped)) change({ notice: error.message });
  }
}
