// A file that is only read: its lines with breakpoints, and the line of the next instruction.
import { fill, make } from './elements.js';
import { parts_of_line } from './highlight.js';
import { file_named, toggle_break } from './project.js';
import { state } from './state.js';

/** A view of files, which `show(file, line)` draws; `on_line(line)` is called where a line is clicked twice. */
export function source_view(on_line) {
  const node = make('div', { class: 'source', tabindex: '0', role: 'region', 'aria-label': 'The program' });
  let drawn = '';
  node.addEventListener('click', (event) => {
    const line = event.target.closest('[data-line]')?.dataset.line;
    if (line && event.target.closest('.number')) toggle_break(state.open_source, Number(line));
  });

  node.addEventListener('dblclick', (event) => {
    const line = event.target.closest('.text')?.parentElement.dataset.line;
    if (line) on_line(Number(line));
  });

  function draw_lines(file) {
    fill(node, (file_named(file)?.text ?? '').replace(/\n$/, '').split('\n').map((line, at) => make('div',
      { class: 'line', 'data-line': String(at + 1) },
      make('button', { type: 'button', class: 'number', tabindex: '-1', title: 'Sets or takes away a breakpoint',
        'aria-label': `Breakpoint at line ${at + 1}` }),
      make('span', { class: 'text' }, parts_of_line(line).map(([kind, part]) => (kind ? make('span', { class: `in-${kind}` }, part) : part)),
        '\u200b'))));
  }

  return {
    node,
    /** Shows words in place of a file. */
    say(words) {
      drawn = '';
      fill(node, make('p', { class: 'empty' }, words));
    },
    show(file, now) {
      const key = `${file}\n${file_named(file)?.text}`;
      if (drawn !== key) { draw_lines(file); drawn = key; }
      const breaks = new Set(state.breaks.filter((it) => it.file === file).map((it) => it.line));
      [...node.children].forEach((row, at) => {
        const is_now = at + 1 === now;
        row.className = is_now ? 'line is-now' : 'line';
        if (is_now) row.setAttribute('aria-current', 'step'); else row.removeAttribute('aria-current');
        fill(row.firstChild, make('span', { class: 'sign' }, breaks.has(at + 1) ? '●' : ''), is_now ? '▶' : '', String(at + 1));
        row.firstChild.setAttribute('aria-pressed', String(breaks.has(at + 1)));
        if (is_now) {
          const top = row.offsetTop - node.offsetTop;
          if (top < node.scrollTop + 30 || top > node.scrollTop + node.clientHeight - 50) node.scrollTop = top - node.clientHeight / 2;
        }
      });
    },
  };
}
