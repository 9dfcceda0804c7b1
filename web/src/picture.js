// The picture of a run, as the program draws it from the log.
import { ask } from './asking.js';
import { what_is_wrong } from './bundle.js';

/** The drawing of `count` rows of a log from row `first` on, about so wide, as a Promise of an SVG element. Each row has a box with its step. */
export async function picture_of(log, { first, count, width }) {
  const text = await drawn(`width ${Math.floor(width)}\nrows ${first} ${count}\n${log}`);
  return document.importNode(new DOMParser().parseFromString(text, 'image/svg+xml').documentElement, true);
}

/** The picture of a whole log as the text of a file. */
export function picture_file(log) {
  return drawn(log);
}

async function drawn(input) {
  const given = await ask('tripos_tools', ['picture'], input, 'the picture is drawn');
  if (given.status !== 0) throw new Error(what_is_wrong(given.text));
  return given.text;
}

/** Where the rows of a drawing are: from steps to `{top, height}`. */
export function spots_in(drawing) {
  return new Map([...drawing.querySelectorAll('.spot')].map((box) =>
    [Number(box.dataset.step), { top: Number(box.getAttribute('y')), height: Number(box.getAttribute('height')) }]));
}
