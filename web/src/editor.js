// The editor of one file: a text area over a layer with its colours, and a column of line numbers.
import { words_of_error } from './assemble.js';
import { button, fill, make } from './elements.js';
import { parts_of_line } from './highlight.js';
import { is_assembly } from './project.js';

const COLUMN = 8;

/**
 * An editor. `on_text(text)` is called at each change, `on_break(line)` where a line number is clicked or F9 is pressed, and `on_caret(text)` with the
 * line in which the caret is.
 * What comes back has the `node`, and shows errors and breakpoints by `mark({errors, breaks})`.
 */
export function make_editor(name, text, { on_text, on_break, on_caret }) {
  const paint = make('pre', { class: 'paint', 'aria-hidden': 'true' });
  const gutter = make('div', { class: 'gutter', 'aria-hidden': 'true' });
  const area = make('textarea', {
    spellcheck: 'false', autocapitalize: 'off', autocomplete: 'off', wrap: 'off', 'aria-label': `Text of ${name}`, 'data-file': name, value: text,
    'aria-describedby': 'editor-keys',
  });
  const node = make('div', { class: 'code' }, gutter, make('div', { class: 'code-area' }, paint, area));
  const shown = { lines: [], errors: new Map(), breaks: new Set() };
  let may_leave = false;

  function repaint() {
    const lines = area.value.split('\n');
    while (paint.childElementCount > lines.length) { paint.lastChild.remove(); gutter.lastChild.remove(); }
    lines.forEach((line, at) => {
      const sign = (shown.errors.has(at + 1) ? '!' : '') + (shown.breaks.has(at + 1) ? '*' : '');
      const key = `${sign} ${line}`;
      if (shown.lines[at] === key && paint.children[at]) return;
      const row = paint.children[at] ?? paint.appendChild(make('div'));
      const number = gutter.children[at] ?? gutter.appendChild(make('div', { 'data-line': String(at + 1) }));
      row.className = shown.errors.has(at + 1) ? 'row bad' : 'row';
      fill(row, is_assembly(name) ? parts_of_line(line).map(([kind, part]) => (kind ? make('span', { class: `in-${kind}` }, part) : part)) : line,
        '\u200b');
      number.className = `${shown.breaks.has(at + 1) ? 'has-break' : ''} ${shown.errors.has(at + 1) ? 'has-error' : ''}`;
      number.title = shown.errors.get(at + 1) ?? (shown.breaks.has(at + 1) ? 'A breakpoint; a click takes it away' : 'A click sets a breakpoint');
      fill(number, make('span', { class: 'sign' }, shown.errors.has(at + 1) ? '!' : shown.breaks.has(at + 1) ? '●' : ''), String(at + 1));
      shown.lines[at] = key;
    });
    shown.lines.length = lines.length;
  }

  function line_of_caret() {
    return area.value.slice(0, area.selectionStart).split('\n').length;
  }

  // this way the browser can undo it
  function insert(words) {
    document.execCommand('insertText', false, words);
  }

  function on_key(event) {
    const had_escape = may_leave;
    may_leave = event.key === 'Escape';
    if (event.key === 'Tab' && !event.shiftKey && !event.ctrlKey && !event.altKey && !had_escape) {
      event.preventDefault();
      const column = area.selectionStart - (area.value.lastIndexOf('\n', area.selectionStart - 1) + 1);
      insert(' '.repeat(COLUMN - (column % COLUMN)));
    } else if (event.key === 'Enter' && !event.ctrlKey && !event.metaKey && is_assembly(name)) {
      const line = area.value.slice(area.value.lastIndexOf('\n', area.selectionStart - 1) + 1, area.selectionStart);
      const indent = /^[A-Za-z]/.test(line) && /^[A-Za-z0-9]+:/.test(line) ? ' '.repeat(COLUMN) : /^ */.exec(line)[0];
      if (indent) { event.preventDefault(); insert(`\n${indent}`); }
    } else if (event.key === 'F9') {
      event.preventDefault();
      on_break(line_of_caret());
    }
  }

  const tell_caret = () => on_caret(area.value.split('\n')[line_of_caret() - 1]);
  area.addEventListener('input', () => { repaint(); on_text(area.value); tell_caret(); });
  for (const kind of ['keyup', 'click', 'focus']) area.addEventListener(kind, tell_caret);
  area.addEventListener('keydown', on_key);
  gutter.addEventListener('click', (event) => {
    const line = event.target.closest('[data-line]')?.dataset.line;
    if (line) on_break(Number(line));
  });
  repaint();

  return {
    node,
    mark({ errors = [], breaks = [] }) {
      shown.errors = new Map(errors.map((it) => [it.line, words_of_error(it)]));
      shown.breaks = new Set(breaks);
      repaint();
    },
    /** Gives the file another text, where it is another one. */
    set_text(other) {
      if (other !== area.value) { area.value = other; repaint(); }
    },
    focus: () => area.focus(),
    /** Puts the caret at the beginning of a line, and the line in sight. */
    go_to(line) {
      const before = area.value.split('\n').slice(0, line - 1).reduce((sum, it) => sum + it.length + 1, 0);
      area.focus({ preventScroll: true });
      area.setSelectionRange(before, before);
      paint.children[line - 1]?.scrollIntoView({ block: 'center', inline: 'nearest' });
    },
  };
}

/** The lines in error under an editor, and those in which something is strange, each a button that goes there. */
export function line_strip(errors, notes, go_to) {
  const told = (look, before) => (it) => fill(button('', () => go_to(it.line), { class: look, 'data-line': String(it.line) }),
    make('strong', {}, `${before} ${it.line}: `), words_of_error(it), it.shown ? make('code', {}, it.shown) : null);
  return [...errors.map(told('error-line', '! Line')), ...notes.map(told('note-line', 'Strange in line'))];
}
