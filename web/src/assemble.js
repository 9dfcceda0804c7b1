// What the assembler says of a text: its module, or the lines in error.
import { ask } from './asking.js';
import { refusal_in } from './codes.js';
import { plain_text, told_errors } from './plain_text.js';

const MOST_ERRORS = 10;

/** The module of a program, a file, as `{module}`, or `{error: {line, code, words}}`. What is wrong in a form of its own has no code. */
export async function assembled(file) {
  const { plain, errors } = await plain_text(file);
  if (errors) return { error: errors[0] };
  const given = await ask('tripos', ['asm'], plain, 'the assembler reads the text');
  if (given.status === 0) return { module: given.text };
  const refused = refusal_in(given.text);
  if (!refused) throw new Error(`The assembler ended with status ${given.status}.`);
  return { error: (await plain_errors(plain)).find(({ line }) => line === refused.line) };
}

/** What is wrong, with its code, if it has one. */
export function words_of_error({ words, code }) {
  return code === '' ? words : `${words} (code ${code})`;
}

/** The lines in error, up to ten: where forms are wrong, these alone. */
export async function errors_in(file) {
  const { plain, errors } = await plain_text(file);
  return (errors ?? await plain_errors(plain)).slice(0, MOST_ERRORS);
}

/** What is strange in a program in which nothing is wrong, up to ten lines. */
export async function notes_in(file) {
  const { plain } = await plain_text(file);
  if (plain === undefined) return [];
  const given = await ask('tripos_tools', ['asm-notes'], plain, 'what is strange is looked for');
  return told_errors(given.text, plain.split('\n')).slice(0, MOST_ERRORS);
}

async function plain_errors(plain) {
  const given = await ask('tripos_tools', ['asm-errors'], plain, 'the lines in error are looked for');
  return told_errors(given.text, plain.split('\n'));
}

/**
 * Where the bytes of each line of a program are, in its hunk: `[{line, offset, label}]`, where label is the last one up to there, or `-`. The program is
 * one that assembles.
 */
export async function offsets_in(file) {
  const { plain } = await plain_text(file);
  const given = await ask('tripos_tools', ['asm-places'], plain, 'the places of the lines are looked for');
  if (given.status !== 0) return [];
  return [...given.text.matchAll(/^([0-9]+) ([0-9]+) (.*)$/gm)].map(([, offset, line, label]) => ({ line: Number(line), offset: Number(offset), label }));
}
