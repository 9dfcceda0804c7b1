// The parts of an assembly line, for their colours; each is also told by its place. A text in quotes comes first, since a semicolon in it begins
// no comment.
const PARTS = /("(?:\*.|[^"*])*"?|'(?:\*.|[^'*])*'?)|(;.*$)|^( *[A-Za-z][A-Za-z0-9]*:)|([A-Z][A-Z0-9]*\$?)(?![A-Za-z0-9])|(-?\b(?:0[xX][0-9A-Fa-f]+|[0-9]+)\b)|([A-Za-z][A-Za-z0-9]*)/g;
const PART_KINDS = ['number', 'comment', 'label', 'name', 'number', 'target'];

/** An assembly line as `[kind, text]`; what has no kind has an empty one. */
export function parts_of_line(line) {
  const parts = [];
  let at = 0;
  let has_name = false;
  for (const found of line.matchAll(PARTS)) {
    if (found.index > at) parts.push(['', line.slice(at, found.index)]);
    at = found.index + found[0].length;
    let kind = PART_KINDS[found.slice(1).findIndex((it) => it !== undefined)];
    // the first word in capitals is the instruction, and what follows it is a label
    if (kind === 'name' && has_name) kind = 'target';
    if (kind === 'name') has_name = true;
    parts.push([kind, found[0]]);
  }
  if (at < line.length) parts.push(['', line.slice(at)]);
  return parts;
}
