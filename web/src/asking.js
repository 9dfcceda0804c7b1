// Asks the proved programs, keeps answers that were given, and says what is going on where it takes long.
import { answer } from './answer.js';
import { change, state } from './state.js';
import { bytes_of, letters_of } from './text.js';

const MOST_ANSWERS = 60;
const MOST_KEPT_BYTES = 1 << 20;
const MOST_LETTERS = 1 << 26;
const answers = new Map();
const going_on = new Set();

/** What is thrown where the user has stopped what was asked. */
export class Stopped extends Error {}

/**
 * What a program answers to words and an input, which is a text: `{status, bytes, text, is_cut, milliseconds}`. Of an answer of more than 64 MB
 * `text` has the end alone, and `is_cut` says so. `what` says in words what is being done, for the case that it takes long. Throws `Stopped`
 * where the user stops it, and an Error with a sentence where there is no answer.
 */
export async function ask(program, words, input, what = 'the program runs') {
  const key = `${program} ${words.join(' ')}\n${input}`;
  if (answers.has(key)) return answers.get(key);
  const stopper = new AbortController();
  const task = { what, stopper, since: Date.now() };
  going_on.add(task);
  const timer = setTimeout(say_busy, 400);
  let given;
  try {
    given = await answer(program, words, bytes_of(input), { signal: stopper.signal });
  } catch (error) {
    if (stopper.signal.aborted) throw new Stopped('stopped');
    throw error;
  } finally {
    clearTimeout(timer);
    going_on.delete(task);
    say_busy();
  }
  if (given.failed) throw new Error(given.failed);
  const is_cut = given.bytes.length > MOST_LETTERS;
  const full = { ...given, is_cut, text: letters_of(is_cut ? given.bytes.subarray(-MOST_KEPT_BYTES) : given.bytes) };
  if (given.bytes.length <= MOST_KEPT_BYTES && input.length <= MOST_KEPT_BYTES) {
    answers.set(key, full);
    if (answers.size > MOST_ANSWERS) answers.delete(answers.keys().next().value);
  }
  return full;
}

function say_busy() {
  const oldest = [...going_on].filter((task) => Date.now() - task.since >= 390)[0];
  if (!oldest && !state.busy) return;
  change({ busy: oldest ? { what: oldest.what, since: oldest.since } : null });
}

/** Ends all that is being asked. */
export function stop_all() {
  for (const task of going_on) task.stopper.abort();
}

/** A runner of one thing at a time: a new call makes the answer of an older one void, for which it gives null. */
export function newest() {
  let last = 0;
  return async (act) => {
    const own = ++last;
    const given = await act();
    return own === last ? given : null;
  };
}
