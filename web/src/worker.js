// In a worker: runs a program for each message, one after the other.
import { run, words_of_failure } from './program.js';

onmessage = ({ data }) => {
  const begin = performance.now();
  try {
    const { status, bytes, memory } = run(data.module, data.words, data.input);
    postMessage({ status, bytes, memory, milliseconds: performance.now() - begin }, [bytes.buffer]);
  } catch (error) {
    postMessage({ failed: words_of_failure(error) });
  }
};
