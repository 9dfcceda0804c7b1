// In a page with the data of web/page.html and an archive: asks all by the page's own workers, eight at a time, and tries Stop. What it finds
// is then the whole page.
import { answer, prepare } from '../src/answer.js';
import { files_of_archive } from '../src/files.js';
import { bytes_of_base64 } from '../src/program.js';
import { as_wanted, questions } from './cases.js';

// a jump to itself
const ENDLESS = 'TRIPOS 1\nSTORE 1024\nBARE\n:baff\nGO 4000000000\n';

/** Stops an endless run, and gives what went wrong as a line, or an empty text. */
async function stopped() {
  const stopper = new AbortController();
  const input = new TextEncoder().encode(ENDLESS);
  const endless = answer('tripos', ['run'], input, { signal: stopper.signal });
  const first = await Promise.race([endless, new Promise((resolve) => { setTimeout(resolve, 300, 'runs'); })]);
  if (first !== 'runs') return `the endless run ended: ${JSON.stringify(first)}\n`;
  const begin = performance.now();
  stopper.abort();
  const end = await endless.catch((error) => error.name);
  if (end !== 'AbortError') return `a stopped run ended with ${JSON.stringify(end)}\n`;
  const again = await answer('tripos', ['run'], input, { signal: stopper.signal }).catch((error) => error.name);
  if (again !== 'AbortError') return `a run that was stopped before ended with ${JSON.stringify(again)}\n`;
  const next = await answer('tripos', ['run'], new TextEncoder().encode(ENDLESS.replace('4000000000', '9')));
  if (next.failed || next.status !== 0) return `the answer after a stopped run is ${JSON.stringify(next)}\n`;
  const took = performance.now() - begin;
  return took < 1000 ? '' : `from Stop to the next answer it took ${took.toFixed(0)} milliseconds\n`;
}

async function all_tried() {
  const all = questions(files_of_archive(bytes_of_base64(document.getElementById('archive').textContent)));
  let lines = '';
  let right = 0;
  let next = 0;
  const asker = async () => {
    while (next < all.length) {
      const row = all[next++];
      const got = await answer(row.program, row.words, row.input);
      const words = as_wanted(row, got);
      if (words) lines += `${words}\n`; else right += 1;
    }
  };
  await Promise.all(Array.from({ length: 8 }, asker));
  return `${lines}${await stopped()}page: ${right} of ${all.length} answers as stored, by workers\n`;
}

prepare();
const found = await all_tried().catch((error) => `${error.stack ?? error}\n`);
document.body.innerText = found;
document.title = 'done';
