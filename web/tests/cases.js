// Tries what the programs answer on all that is stored with its answer: the cases, the examples, and answers of the native second program.
import { files_of_archive } from '../src/files.js';
import { run, words_of_failure } from '../src/program.js';

/** What is asked and what it is to answer, `{name, program, words, input, status, output}` each, of the files in an archive by checks/page. */
export function questions(files) {
  const found = [];
  const text = (path) => new TextDecoder().decode(files.get(path));
  const ask = (program, words, input, output, status) =>
    found.push({ name: `${input} (${words.join(' ')})`, program, words, input: files.get(input), output: files.get(output), status });
  const stored = (words, input, output, status) => ask('tripos', words, input, output, files.has(status) ? Number(text(status)) : 0);
  const words_in = (path) => text(path).split('\n').slice(0, -1);
  for (const path of files.keys()) {
    const [top, folder, file] = path.split('/');
    const at = `${top}/${folder}`;
    const bare = path.replace(/\.stdout$/, '');
    if (top === 'cases' && bare !== path) stored(words_in(`${bare}.args`), bare, path, `${bare}.status`);
    else if (at === 'examples/ring' && bare !== path) stored(['ring'], bare, path);
    else if (top !== 'examples') continue;
    else if (file === 'stdout') stored(words_in(`${at}/args`), `${at}/session`, path, `${at}/status`);
    else if (file === 'trace') stored(['trace'], `${at}/session`, path, `${at}/status`);
    else if (file === 'module') stored(['asm'], `${at}/program.asm`, path);
    else if (file === 'listing') stored(['disasm'], `${at}/module`, path);
  }
  // a line of this file has the number N of an answer, which is in shown/N, the path of its input, its status and its words
  for (const line of text('shown/list').split('\n').slice(0, -1)) {
    const [n, input, status, ...words] = line.split(' ');
    ask('tripos_show', words, input, `shown/${n}`, Number(status));
  }
  return found;
}

/** In what an answer is not the one that is wanted, as a line, or an empty text. */
export function as_wanted({ name, status, output }, got) {
  if (got.failed) return `${name}: ${got.failed}`;
  if (got.status !== status) return `${name}: ended with status ${got.status}, and not ${status}`;
  if (got.bytes.length !== output.length || got.bytes.some((byte, i) => byte !== output[i])) return `${name}: wrote something else`;
  return '';
}

/**
 * Asks all of an archive of checks/page, and gives as a text a line for each answer that differs, and a last line with how many are as stored.
 * The programs are in the archive too, and all is done in one go: a headless browser shows a page as it is when its scripts have run.
 */
export function tried(archive) {
  const files = files_of_archive(archive);
  const compiled = (name) => new WebAssembly.Module(files.get(`programs/${name}.wasm`));
  const modules = { tripos: compiled('tripos'), tripos_show: compiled('tripos_show') };
  const answered = ({ program, words, input }) => {
    try {
      return run(modules[program], words, input);
    } catch (error) {
      return { failed: words_of_failure(error) };
    }
  };
  const all = questions(files);
  const lines = all.map((row) => as_wanted(row, answered(row))).filter(Boolean);
  return [...lines, `page: ${all.length - lines.length} of ${all.length} answers as stored`, ''].join('\n');
}
