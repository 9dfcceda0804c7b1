// Runs a program of web/page.html without a browser: node web/run.js tripos|tripos_show|tripos_tools WORD.. < INPUT
import { readFileSync, writeSync } from 'node:fs';
import { bytes_of_base64, run, unpacked, words_of_failure } from './src/program.js';

// the exit statuses by which the programs say that the input could not be read, and that the output could not be written
const READ_FAULT = 5;
const WRITE_FAULT = 6;
// no answer of the program
const NO_ANSWER = 9;

const [name, ...words] = process.argv.slice(2);
const closed = (process.env.CLOSED ?? '').split(' ');
const page = readFileSync(new URL('page.html', import.meta.url), 'latin1');
const [, packed] = page.match(new RegExp(`<script type="text/plain" id="program-${name}">([^<]*)</script>`));
// node has put U+FFFD in place of what is no UTF-8
if (words.some((word) => word.includes('\uFFFD'))) {
  console.error('a word of the command line is no text in UTF-8');
  process.exit(NO_ANSWER);
}
const module = new WebAssembly.Module(await unpacked(bytes_of_base64(packed)));

function open(stream) {
  if (closed.includes(stream)) throw new Error(`standard ${stream} is closed`);
}

let failed = NO_ANSWER;
try {
  const { status, bytes } = run(module, words, () => {
    failed = READ_FAULT;
    open('input');
    const input = readFileSync(0);
    failed = NO_ANSWER;
    return input;
  });
  failed = WRITE_FAULT;
  if (bytes.length > 0) open('output');
  for (let at = 0; at < bytes.length; ) at += writeSync(1, bytes, at);
  process.exit(status);
} catch (error) {
  console.error(words_of_failure(error));
  process.exit(failed);
}
