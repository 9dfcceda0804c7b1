// The plain assembly text of a program.
import { ask } from './asking.js';
import { is_friendly } from './project.js';

/** The status by which the program says that something is wrong in its input. */
export const REFUSED = 3;

/**
 * The plain text of a program, a file, as `{plain}`; or `{errors}`, lines where forms are wrong, by their numbers. Line n of the plain text is
 * made of line n of the file. The bytes of strings are in lines after the last one.
 */
export async function plain_text({ name, text }) {
  if (!is_friendly(name)) return { plain: text };
  const given = await ask('tripos_tools', ['asm'], text, 'the plain text is made');
  if (given.status === 0) return { plain: new TextDecoder().decode(given.bytes) };
  if (given.status !== REFUSED) throw new Error(`The plain text could not be made (status ${given.status}).`);
  return { errors: told_errors(given.text, text.split('\n')) };
}

/**
 * The lines in error that a tool tells of these lines, by their numbers. Each is a line `line N: WORDS`, with ` (code C)` after it where the program has a
 * code for it, and after it come the line and a mark.
 */
export function told_errors(told, lines) {
  return [...told.matchAll(/^line ([0-9]+): (.*?)(?: \(code ([0-9]+)\))?$/gm)]
    .map(([, line, words, code = '']) => ({ line: Number(line), code, words, shown: (lines[Number(line) - 1] ?? '').trim() }))
    .sort((a, b) => a.line - b.line);
}
