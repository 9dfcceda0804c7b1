// What happened in a run, in words, as the program tells it.
import { ask } from './asking.js';
import { file_word, what_is_wrong, word } from './bundle.js';

/** The log of the steps of a session from one to another, as a Promise of its text. */
export async function log_of(session, first, last) {
  const bundle = file_word('session', session) + ['-', 'all', String(Math.max(1, first)), String(last)].map(word).join('');
  const given = await ask('tripos_show', ['events'], bundle, 'what happened in each step is told');
  if (given.status !== 0) throw new Error(what_is_wrong(given.text));
  return given.text;
}

/** The lines of a log: `{step, task, pc, kind, words}`, where a task or a place that is none is null. */
export function lines_of_log(log) {
  const lines = [];
  for (const [, step, task, pc, kind, words] of log.matchAll(/^ *([0-9]+) +[0-9-]+ +([0-9]+|-) +([0-9]+|-) +([a-z]+) +(.*)$/gm))
    lines.push({ step: Number(step), task: number_or_null(task), pc: number_or_null(pc), kind, words });
  return lines;
}

function number_or_null(text) {
  return text === '-' ? null : Number(text);
}

/** The same log without the lines that a picture does not show: those of single instructions, words and ticks. */
export function without_steps(log) {
  return log.replace(/^ *[0-9]+ +[0-9-]+ +\S+ +\S+ +(?:step|write|tick) .*\n/gm, '');
}
