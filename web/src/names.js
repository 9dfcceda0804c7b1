// Where a byte address lies: in which module, and in which function, if a BCPL compiler has left its name before it. The rules are those of
// crates/run_names, and so are the words.
import { ask } from './asking.js';
import { closing_of } from './codes.js';
import { with_steps } from './moment.js';

const CHAIN_OF_MODULES = 104;
const MOST_MODULES = 1000;
const ENTRY_WORD = 0xdfdf;

/** The files of a session, each as the numbers that it is of, if it is a module. */
function files_of_session(session) {
  const files = new Map();
  let name = '';
  for (const line of session.split(/\r?\n/)) {
    if (line.startsWith(':')) {
      if (name !== '') files.get(name).push(...line.slice(1).split(/\s+/).filter(Boolean).map((it) => parseInt(it, 16)));
      continue;
    }
    name = /^FILE (\S+)/.exec(line)?.[1] ?? '';
    if (name !== '' && !files.has(name)) files.set(name, []);
  }
  return files;
}

/** Whether a module's hunks have the words of a file; data may have changed since it was loaded. */
function is_module_of(word, module, numbers) {
  const hunks = word(module + 1);
  let first = module + 2 + hunks;
  let [at, hunk, count, same] = [0, 0, 0, 0];
  for (; numbers[at] === 1000 && hunk < hunks; hunk++) {
    const size = numbers[at + 1];
    if (word(module + 2 + hunk) !== size) break;
    const moved = new Set();
    let next = at + 2 + size;
    for (; numbers[next] === 1001; next += 2 + numbers[next + 1])
      for (const offset of numbers.slice(next + 2, next + 2 + numbers[next + 1])) moved.add(offset);
    for (let i = 0; i < size; i++) {
      if (moved.has(i)) continue;
      count += 1;
      if (word(first + i) === numbers[at + 2 + i]) same += 1;
    }
    first += size;
    at = next;
  }
  return hunk === hunks && numbers[at] === 1002 && same >= 0.75 * count;
}

/** The hunks of all modules: `{from, to, name}`, by word addresses. */
function hunks_of(word, files) {
  const hunks = [];
  let module = word(CHAIN_OF_MODULES);
  for (let modules = 0; module !== 0 && modules < MOST_MODULES; modules++, module = word(module)) {
    const count = word(module + 1);
    const name = [...files.keys()].find((file) => is_module_of(word, module, files.get(file))) ?? 'module';
    let from = module + 2 + count;
    for (let hunk = 0; hunk < count; hunk++) {
      const to = from + word(module + 2 + hunk);
      hunks.push({ from, to, name: `${name}${count > 1 ? `, hunk ${hunk + 1}` : ''}` });
      from = to;
    }
  }
  return hunks;
}

/** The name after the words that a BCPL compiler leaves before a function: a string of 7 or 11 characters with blanks at its end. */
function name_after(word, at) {
  if (word(at) !== ENTRY_WORD) return '';
  const count = word(at + 1) & 255;
  if (count !== 7 && count !== 11) return '';
  const bytes = Array.from({ length: count }, (_, i) => (word(at + 1 + ((i + 1) >> 2)) >>> (8 * ((i + 1) & 3))) & 255);
  return bytes.every((byte) => byte >= 32 && byte <= 126) ? String.fromCharCode(...bytes).trimEnd() : '';
}

/** The function in which a word of a hunk lies: that of the last name at or before it. */
function function_at(word, at, from) {
  for (let entry = at - 3; entry >= from; entry--) {
    const name = name_after(word, entry);
    if (name !== '') return name;
  }
  return '';
}

/** Says of a byte address where it lies, `in the function start of queens at offset 126`, or has no words for it. */
function places_in(words, session) {
  const word = (at) => words.get(at) ?? 0;
  const hunks = hunks_of(word, files_of_session(session));
  const known = new Map();
  const place_in = (byte) => {
    const hunk = hunks.find(({ from, to }) => byte >= 4 * from && byte < 4 * to);
    if (!hunk) return '';
    const name = function_at(word, Math.floor(byte / 4), hunk.from);
    return `in ${name === '' ? '' : `the function ${name} of `}${hunk.name} at offset ${byte - 4 * hunk.from}`;
  };
  return (byte) => {
    if (!known.has(byte)) known.set(byte, place_in(byte));
    return known.get(byte);
  };
}

/** The places in the store after a step of a session of a machine with a kernel, as a Promise of a function from byte addresses to words. */
export async function places_after(session, step) {
  if (!/^TICK /m.test(session)) return () => '';
  const given = await ask('tripos', ['dump'], with_steps(session, step), 'the modules in the store are looked for');
  const length = closing_of(given.text)?.length ?? 0;
  const words = new Map();
  for (const [, at, word] of given.text.slice(given.text.length - length).matchAll(/^([0-9]+) ([0-9a-f]{8})$/gm)) words.set(Number(at), parseInt(word, 16));
  return places_in(words, session);
}
