// The words and files that a tool takes as one input (docs/manual/bundles.md).
import { bytes_of } from './text.js';

/** A word. */
export function word(text) {
  return `word ${bytes_of(text).length}\n${text}\n`;
}

/** A word that names a file, with the file. */
export function file_word(name, text) {
  return `file ${bytes_of(name).length} ${bytes_of(text).length}\n${name}\n${text}\n`;
}

/** A word that names a file which is not there. */
export function no_file_word(name) {
  return `none ${bytes_of(name).length}\n${name}\n`;
}

/** What a tool says is wrong: all but its first line, which has a status. */
export function what_is_wrong(text) {
  return text.slice(text.indexOf('\n') + 1).trim();
}
