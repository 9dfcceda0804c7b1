// The text of a module with one hunk, as the assembler writes it.

/** Its words, the places that are relocated, and its pairs of globals `[number, offset]`. */
export function read_module(text) {
  const tokens = text.split(/\s+/).filter(Boolean).map((it) => parseInt(it, 16));
  const size = tokens[1];
  const words = tokens.slice(2, 2 + size);
  const moved = tokens[2 + size] === 0x3e9 ? tokens.slice(4 + size, 4 + size + tokens[3 + size]) : [];
  const globals = [];
  let end = size - 1;
  // the pairs stand before the highest number, and the word 0 before them
  if (words[size - 1] !== 0) for (end = size - 2; words[end] !== 0; end -= 2) globals.unshift([words[end - 1], words[end]]);
  return { words, moved, globals, code_end: end };
}
