// Runs one of the programs, without a page or a worker, so that node can use it too.

/** The most bytes of an answer that are kept. */
export const MOST_BYTES = 1 << 28;

/** Thrown where an answer has more than `MOST_BYTES` bytes. */
export class TooLong extends Error {}

// A module that uses what the programs use beyond the first version of WebAssembly: memory.fill and i32.extend8_s.
const SMALL_MODULE = Uint8Array.of(
  0x00, 0x61, 0x73, 0x6d, 0x01, 0x00, 0x00, 0x00, 0x01, 0x04, 0x01, 0x60, 0x00, 0x00, 0x03, 0x02, 0x01, 0x00, 0x05, 0x03, 0x01, 0x00, 0x01,
  0x0a, 0x0e, 0x01, 0x0c, 0x00, 0x41, 0x00, 0x41, 0x00, 0xc0, 0x41, 0x00, 0xfc, 0x0b, 0x00, 0x0b,
);

/** What the machine under the page lacks for the programs, as a sentence for the reader, or null if it lacks nothing. */
export function missing() {
  if (typeof WebAssembly === 'undefined') return 'This browser has no WebAssembly, or it is turned off. The programs need it.';
  if (!WebAssembly.validate(SMALL_MODULE) || typeof BigInt64Array === 'undefined')
    return 'The WebAssembly of this browser is too old: the programs need bulk memory operations, sign extension and 64-bit integers.';
  if (typeof DecompressionStream === 'undefined') return 'This browser is too old: it has no DecompressionStream, by which the page unpacks the programs.';
  return null;
}

/** The bytes that the gzip bytes `packed` hold, as a Promise of a Uint8Array. */
export async function unpacked(packed) {
  const plain = new Blob([packed]).stream().pipeThrough(new DecompressionStream('gzip'));
  return new Uint8Array(await new Response(plain).arrayBuffer());
}

/** The bytes that a text in base64 stands for. */
export function bytes_of_base64(text) {
  return Uint8Array.from(atob(text), (letter) => letter.charCodeAt(0));
}

/**
 * What a program answers. `module` is the compiled program, `words` the words after its name, and `input` the bytes on its standard input,
 * or a function that gives them when the program first reads. Each call makes an instance of its own, so that no answer sees what another
 * one left.
 *
 * Gives `status`, the exit status; `bytes`, what is written on standard output; and `memory`, the bytes of memory that the instance took.
 * Throws TooLong where more than MOST_BYTES bytes are written, and a WebAssembly.RuntimeError or RangeError where the instance traps.
 */
export function run(module, words, input) {
  const encoder = new TextEncoder();
  const args = ['program', ...words].map((word) => encoder.encode(word));
  const pieces = [];
  let length = 0;
  let at = 0;
  let memory = null;
  const view = (from, count) => new Uint8Array(memory.buffer, Number(from), Number(count));
  const page = {
    // native/host.c says what these three give
    read(_file, into, most) {
      if (typeof input === 'function') input = input();
      const count = Math.min(Number(most), input.length - at);
      view(into, count).set(input.subarray(at, at + count));
      at += count;
      return BigInt(count);
    },
    write(_file, from, count) {
      length += Number(count);
      if (length > MOST_BYTES) throw new TooLong();
      pieces.push(view(from, count).slice());
      return count;
    },
    arg(index, into, most) {
      const word = args[Number(index)];
      if (!word) return -1n;
      const room = view(into, most);
      room.set(word.subarray(0, room.length));
      return word.length <= room.length ? BigInt(word.length) : -2n;
    },
  };
  const { exports } = new WebAssembly.Instance(module, { page });
  memory = exports.memory;
  const status = exports.page_run();
  const bytes = new Uint8Array(length);
  let to = 0;
  for (const piece of pieces) {
    bytes.set(piece, to);
    to += piece.length;
  }
  return { status, bytes, memory: memory.buffer.byteLength };
}

/** A sentence for what `run` has thrown. */
export function words_of_failure(error) {
  if (error instanceof TooLong) return `The answer has more than ${MOST_BYTES.toLocaleString('en')} bytes, and the page keeps no more.`;
  if (error instanceof RangeError) return `There is not memory enough in this browser for this run (${error.message}).`;
  return `The program could not be run to its end in this browser (${error.message ?? error}).`;
}
