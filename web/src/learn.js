// The view Learn: examples, labs and the manual, with a search over all pages.
import { button, fill, make } from './elements.js';
import { example_named, list_of_examples } from './examples.js';
import { files } from './files.js';
import { headings } from './markdown.js';
import { open_instead } from './opening.js';
import { page_body, title_of } from './pages.js';
import { change, state, watch } from './state.js';

const MOST_FOUND = 40;
const FIRST_PAGES = ['docs/manual/page.md', 'docs/manual/first-program.md'];

/** The pages of the manual in the order of its first page, and then the others. */
function manual_pages(map) {
  const all = [...map.keys()].filter((path) => path.startsWith('docs/manual/'));
  const linked = [...(map.get('docs/manual/README.md') ?? '').matchAll(/\]\(([a-z-]+\.md)/g)].map(([, name]) => `docs/manual/${name}`);
  return [...new Set(['docs/manual/README.md', ...linked, ...all])].filter((path) => map.has(path));
}

function lab_pages(map) {
  const number = (path) => Number(/course\/([0-9]+)/.exec(path)?.[1] ?? 0);
  return [...map.keys()].filter((path) => /^course\/[0-9].*\/lab\.md$/.test(path)).sort((a, b) => number(a) - number(b));
}

function example_body(map, name, shows) {
  const work = example_named(map, name);
  const expected = map.get(`examples/${name}/stdout`);
  return make('article', { class: 'page' }, make('h1', {}, `Example ${name}`), make('p', {}, `${shows[0]?.toUpperCase() ?? ''}${shows.slice(1)}.`),
    make('p', {}, button('▶ Open and run', () => open_instead(work), { class: 'primary', id: 'open-example' }), ' ',
      button('Open in Steps', () => open_instead(work, { view: 'steps' })), ' ',
      work.project.kind === 'bare' ? null : button('Open in What happened', () => open_instead(work, { view: 'happened' }))),
    expected === undefined ? null : [make('h2', {}, 'What it writes'),
      make('pre', {}, expected.length > 3000 ? `${expected.slice(0, 3000)} …` : expected)],
    work.project.files.map((file) => [make('h2', {}, file.name), make('pre', {}, file.text)]));
}

function other_body(map, path) {
  return make('article', { class: 'page' }, make('h1', {}, path), make('pre', {}, map.get(path)));
}

/** The lines of all pages that have all of these words: `{path, title, anchor, shown}`. */
function search(map, paths, wanted) {
  const words = wanted.toLowerCase().split(/\s+/).filter(Boolean);
  const found = [];
  for (const path of paths) {
    const text = map.get(path);
    const sections = text.split(/^(?=#{1,4} )/m);
    const heads = headings(text);
    sections.forEach((section) => {
      const lower = section.toLowerCase();
      if (!words.every((word) => lower.includes(word))) return;
      const title = /^#{1,4} (.*)$/m.exec(section)?.[1] ?? '';
      const head = heads.find((it) => it.text === title.replace(/`/g, ''));
      const at = Math.max(0, lower.indexOf(words[0]) - 60);
      const score = words.every((word) => title.toLowerCase().includes(word)) ? 0 : 1;
      found.push({ path, title: title.replace(/`/g, ''), anchor: head?.anchor ?? '', score,
        shown: section.slice(at, at + 170).replace(/\]\([^)]*\)|[`*|[]/g, ' ').replace(/\s+/g, ' ') });
    });
  }
  return found.sort((a, b) => a.score - b.score);
}

/** The view; it is drawn once the files are unpacked. */
export function learn_view() {
  const list = make('nav', { class: 'contents', 'aria-label': 'Contents' });
  const body = make('div', { class: 'page-body', tabindex: '-1', id: 'page-body' });
  const input = make('input', { type: 'search', placeholder: 'Search all pages', 'aria-label': 'Search all pages', id: 'search' });
  files().then((map) => {
    const examples = list_of_examples(map);
    const labs = lab_pages(map);
    const manual = manual_pages(map);
    const others = [...map.keys()].filter((path) => path.endsWith('.md') && !manual.includes(path) && !labs.includes(path));
    const entry = (page, text) => button(text, () => change({ page }), { class: 'entry', 'data-page': page });
    fill(list, input,
      make('h2', {}, 'Examples'), examples.map(({ name }) => entry(`examples/${name}`, name)),
      make('h2', {}, 'Labs'), labs.map((path) => entry(path, title_of(map.get(path)).replace(/^Lab /, ''))),
      make('h2', {}, 'Manual'), manual.map((path) => entry(path, title_of(map.get(path)))),
      make('h2', {}, 'More'), others.map((path) => entry(path, title_of(map.get(path)))));

    const show_page = () => {
      const first = FIRST_PAGES.find((it) => map.has(it));
      const [wanted, anchor] = (state.page || first).split(':');
      const example = examples.find(({ name }) => wanted === `examples/${name}`)?.name;
      const path = example || map.has(wanted) ? wanted : first;
      fill(body, example ? example_body(map, example, examples.find(({ name }) => name === example)?.shows ?? '') : path.endsWith('.md')
        ? page_body(map, path) : other_body(map, path));
      for (const it of list.querySelectorAll('.entry')) if (it.dataset.page === path) it.setAttribute('aria-current',
        'page'); else it.removeAttribute('aria-current');
      const head = anchor && [...body.querySelectorAll('[id]')].find((it) => it.id === anchor);
      if (head) head.scrollIntoView(); else body.scrollTop = 0;
    };
    const show_found = () => {
      if (input.value.trim() === '') { show_page(); return; }
      const found = search(map, [...manual, ...labs, ...others], input.value);
      fill(body, make('article', { class: 'page' },
        make('h1', {}, `${found.length} ${found.length === 1 ? 'place' : 'places'} with "${input.value.trim()}"`),
        found.slice(0, MOST_FOUND).map((it) => make('div', { class: 'found' },
          button(`${title_of(map.get(it.path))}: ${it.title}`,
          () => { input.value = ''; change({ page: '' }); change({ page: it.anchor ? `${it.path}:${it.anchor}` : it.path }); }, { class: 'link' }),
          make('p', { class: 'help' }, `… ${it.shown} …`)))));
    };
    input.addEventListener('input', show_found);
    watch(['page'], show_page);
    show_page();
  });
  return make('div', { class: 'learn' }, make('section', { class: 'card scrolls' }, list),
    make('section', { class: 'card', 'aria-label': 'Page' }, body));
}
