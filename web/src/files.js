// The files of the repository that are in the page: the manual, the examples, the course and the library.
import { bytes_of_base64, unpacked } from './program.js';

/**
 * The files in an archive, as a Map from their paths to their bytes. An archive begins with a line for each file, its path, a tab and the number
 * of its bytes, and an empty line; then come the bytes of all of them in that order.
 */
export function files_of_archive(bytes) {
  const decoder = new TextDecoder();
  const found = new Map();
  let end = bytes.indexOf(10);
  for (let at = 0; end > at; at = end + 1, end = bytes.indexOf(10, at)) {
    const [path, length] = decoder.decode(bytes.subarray(at, end)).split('\t');
    found.set(path, Number(length));
  }
  for (const [path, length] of found) {
    found.set(path, bytes.subarray(end + 1, end + 1 + length));
    end += length;
  }
  return found;
}

let read = null;

/** The files in the page, as a Promise of a Map from paths in the repository, such as `examples/hello/session`, to texts. */
export function files() {
  read ??= (async () => {
    const decoder = new TextDecoder();
    const archive = await unpacked(bytes_of_base64(document.getElementById('files').textContent));
    return new Map([...files_of_archive(archive)].map(([path, bytes]) => [path, decoder.decode(bytes)]));
  })();
  return read;
}
