// From byte addresses of the store to lines of the user's files, and back.
import { assembled, offsets_in } from './assemble.js';
import { read_module } from './module_text.js';
import { file_named } from './project.js';

const FIRST_HUNK = 796;
// the lines of the programs of a session that the form has made, by that session
const known = new WeakMap();
// the program of each module that was seen with its name, by where it is: a program that has changed its own words has none
const seen = new WeakMap();

/** The programs of what the form has made, each with the lines that its bytes come from, as a Promise. */
export async function programs_of(made) {
  if (!made?.text) return [];
  if (!known.has(made)) {
    known.set(made, Promise.all(made.programs.map(async (program) => {
      const file = file_named(program.file, made.project) ?? { name: program.file, text: '' };
      const { module } = await assembled(file);
      const { words, moved, code_end } = module ? read_module(module) : { words: [], moved: [], code_end: 0 };
      return { ...program, words, moved, bytes: 4 * code_end, lines: module ? await offsets_in(file) : [] };
    })).then(with_bases));
  }
  return known.get(made);
}

// Programs with the byte of the hunk of each on a bare machine, where the code of one is after that of another from byte 800 on.
function with_bases(programs) {
  let base = FIRST_HUNK;
  return programs.map((program) => {
    const own = { ...program, base };
    base += Math.max(program.bytes - 4, 0);
    return own;
  });
}

/** Where the programs are loaded in a moment: each program with the byte address of its hunk. */
export function loaded_programs(made, programs, moment) {
  if (made.project.kind === 'bare') return programs;
  if (!seen.has(made)) seen.set(made, new Map());
  const names = seen.get(made);
  const found = [];
  for (const { line } of moment.state.parts.modules ?? []) {
    const [, at, byte, , name] = /^module at ([0-9]+), hunks [0-9]+, from byte ([0-9]+)(, program (.*))?$/.exec(line) ?? [];
    if (name) names.set(at, name);
    const program = programs.find((it) => it.name === (name ?? names.get(at)));
    if (program) found.push({ ...program, base: Number(byte) });
  }
  return found;
}

/** The line that the byte at an address comes from: `{file, line, label}`, or null. */
export function line_at(loaded, address) {
  const program = loaded.find(({ base, bytes }) => address >= base + 4 && address < base + bytes);
  if (!program) return null;
  let found = null;
  for (const line of program.lines) if (line.offset <= address - program.base) found = line; else break;
  return found && { file: program.file, line: found.line };
}

/** The byte addresses of a line, or of the next one that has bytes, one for each time that its program is loaded. */
export function addresses_of(loaded, file, line) {
  return loaded.filter((it) => it.file === file).flatMap(({ base, lines }) => {
    const found = lines.find((it) => it.line >= line);
    return found ? [base + found.offset] : [];
  });
}
