// The map of what the form has made: where the lines of its programs are, as ./session -m writes it.
import { programs_of } from './places.js';

/** The map, as a Promise of its text. */
export async function program_map_of(made) {
  const is_bare = made.project.kind === 'bare';
  const programs = await programs_of(made);
  return programs.filter(({ words }) => words.length > 0).map(({ name, file, words, moved, base, lines }) => [
    `program ${name} ${file}`,
    `hunk ${name} ${words.map((it, at) => (moved.includes(at) ? '-' : it.toString(16).padStart(8, '0'))).join(' ')}`,
    ...lines.map(({ offset, line, label }) => `line ${name} ${offset} ${line} ${label}`),
    ...(is_bare ? [`at ${name} ${base}`] : []), ''].join('\n')).join('');
}
