// All that the machine says comes from here: `answer` gives what one of the proved programs answers.
import { bytes_of_base64, missing, unpacked } from './program.js';

// a worker that has run an instance of more bytes than this is not used again, so that its memory is given back
const MOST_KEPT = 1 << 26;

const compiled = new Map();
const idle = [];
let script = null;

/** The compiled program of this name, `tripos`, `tripos_show` or `tripos_tools`, as a Promise. */
function program_of(name) {
  if (!compiled.has(name)) {
    const compile = async () => WebAssembly.compile(await unpacked(bytes_of_base64(document.getElementById(`program-${name}`).textContent)));
    compiled.set(name, compile());
  }
  return compiled.get(name);
}

function new_worker() {
  script ??= URL.createObjectURL(new Blob([document.getElementById('worker').textContent], { type: 'text/javascript' }));
  return new Worker(script);
}

/** Has a worker wait for the next answer. One that cannot be started is told by the answer that needs it. */
function keep_spare() {
  try {
    if (idle.length === 0) idle.push(new_worker());
  } catch {
    // nothing waits then
  }
}

/** Starts a worker and compiles the programs, so that the first answer comes soon. */
export function prepare() {
  if (missing()) return;
  keep_spare();
  // a program that cannot be compiled is told by the first answer
  for (const name of ['tripos', 'tripos_show', 'tripos_tools']) program_of(name).catch(() => {});
}

/**
 * What a program answers, as a Promise. `program` is `tripos`, `tripos_show` or `tripos_tools`, `words` an array with the command and its
 * words, and `bytes` a Uint8Array with what is on standard input.
 *
 * The Promise gives `{status, bytes, milliseconds}`: the exit status, the bytes on standard output, and how long the program ran; or
 * `{failed}`, a sentence that says why there is no answer: the browser lacks what the program needs, or memory, or the answer is too long.
 * Where `signal` (of an AbortController) is aborted, the worker is ended at once and the Promise is rejected with the signal's reason.
 */
export async function answer(program, words, bytes, { signal } = {}) {
  signal?.throwIfAborted();
  const lack = missing();
  if (lack) return { failed: lack };
  let module;
  let worker;
  try {
    module = await program_of(program);
    signal?.throwIfAborted();
    worker = idle.pop() ?? new_worker();
    keep_spare();
  } catch (error) {
    if (signal?.aborted) throw error;
    return { failed: `This browser could not start the program (${error.message}).` };
  }
  return new Promise((resolve, reject) => {
    const stop = () => {
      worker.terminate();
      reject(signal.reason);
    };
    const done = (data, keep) => {
      signal?.removeEventListener('abort', stop);
      if (keep && idle.length < 2) idle.push(worker);
      else worker.terminate();
      resolve(data);
    };
    signal?.addEventListener('abort', stop);
    worker.onmessage = ({ data }) => {
      if (data.failed) done({ failed: data.failed }, false);
      else done({ status: data.status, bytes: data.bytes, milliseconds: data.milliseconds }, data.memory <= MOST_KEPT);
    };
    worker.onerror = (event) => done({ failed: `The program could not be run in this browser (${event.message ?? 'no worker'}).` }, false);
    // a copy, since a part of a larger array would be sent with all of that
    const input = bytes.slice();
    worker.postMessage({ module, words, input }, [input.buffer]);
  });
}
