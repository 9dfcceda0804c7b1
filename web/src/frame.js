// What is around the views: the name, the ways, what is going on, and what is proved.
import { button, fill, make } from './elements.js';
import { stop_all } from './asking.js';
import { keep_setting, kept_setting } from './memory.js';
import { change, state, watch } from './state.js';
import { duration } from './text.js';

const SCHEMES = ['auto', 'light', 'dark'];

function set_scheme(scheme) {
  document.documentElement.dataset.scheme = scheme;
}

function scheme_button() {
  let scheme = SCHEMES.includes(kept_setting('scheme')) ? kept_setting('scheme') : 'auto';
  set_scheme(scheme);
  const node = button('', () => {
    scheme = SCHEMES[(SCHEMES.indexOf(scheme) + 1) % SCHEMES.length];
    set_scheme(scheme);
    keep_setting('scheme', scheme);
    show();
  }, { class: 'small', id: 'scheme' });
  const show = () => {
    fill(node, { auto: '◐ Auto', light: '○ Light', dark: '● Dark' }[scheme]);
    node.setAttribute('aria-label', `Colours: ${scheme}`);
    node.title = 'Light or dark colours, or as the system has them';
  };
  show();
  return node;
}

/** The head of the page, with a button for each view. */
export function page_head(views, show_keys) {
  const ways = make('nav', { class: 'ways', 'aria-label': 'Views' });
  const show = () => fill(ways, views.map(([id, text], at) => button(text, () => change({ view: id }),
    { id: `way-${id}`, 'aria-current': state.view === id ? 'page' : null, title: `Alt+${at + 1}` })));
  watch(['view'], show);
  show();
  return make('header', {}, make('div', { class: 'brand' }, make('h1', {}, 'Kijolpe'),
    make('span', {}, 'multitasking programs on a small, proved virtual computer')),
    ways, make('div', { class: 'tools' }, scheme_button(), button('Keys ?', show_keys, { class: 'small', id: 'keys' })));
}

/** What a first visitor is told, over the first example, until it is closed. */
export function page_intro(open_page) {
  const node = make('aside', { class: 'intro', 'aria-label': 'To begin with' });
  const show = () => { node.hidden = kept_setting('seen') === 'yes' || state.view !== 'programs' || state.project.title !== 'Example packets'; };
  const link = (text, act) => button(text, act, { class: 'link' });
  node.append(make('p', {}, make('strong', {}, 'New here? '), 'Two tasks run here: a client sends numbers in packets, and a server adds 1. ',
    make('strong', {}, '1 '), 'Change a number in client.asm, and press Run. ', make('strong', {}, '2 '), 'Go through it in ',
      link('Steps', () => change({ view: 'steps' })), '. ',
    make('strong', {}, '3 '), 'See its packets in ', link('What happened', () => change({ view: 'happened' })), '. ', make('strong', {}, '4 '),
      'Learn from the ', link('First program', () => open_page('docs/manual/first-program.md')), '.'),
  button('×', () => { keep_setting('seen', 'yes'); show(); }, { class: 'icon', id: 'close-intro', 'aria-label': 'Close', title: 'Close' }));
  watch(['view', 'project'], show);
  show();
  return node;
}

/** A bar that says what is going on, and one for sentences to the reader. */
export function page_says() {
  const busy = make('div', { class: 'busy', role: 'status', 'aria-live': 'polite', hidden: true });
  const notice = make('div', { class: 'notice', role: 'alert', hidden: true });
  let timer = 0;
  watch(['busy'], () => {
    clearInterval(timer);
    busy.hidden = !state.busy;
    if (!state.busy) return;
    const time = make('span');
    const tell = () => { time.textContent = duration(Date.now() - (state.busy?.since ?? Date.now())); };
    fill(busy, make('span', { class: 'turning', 'aria-hidden': 'true' }), `Working: ${state.busy.what} … `, time,
      button('■ Stop', stop_all, { class: 'small' }));
    tell();
    timer = setInterval(tell, 200);
  });
  const show_notice = () => {
    notice.hidden = !state.notice;
    fill(notice, state.notice, ' ', button('Close', () => change({ notice: '' }), { class: 'small' }));
  };
  watch(['notice'], show_notice);
  show_notice();
  return [busy, notice];
}

function sum_named(name) {
  const text = document.getElementById('sources')?.textContent ?? '';
  return new RegExp(`^${name} ([0-9a-f]+)$`, 'm').exec(text)?.[1] ?? 'unknown';
}

/** What is proved and what is trusted. */
export function page_foot(forget) {
  return make('footer', {},
    make('details', {}, make('summary', {}, 'What is proved, and what is trusted'),
      make('p', {}, make('strong', {}, 'Proved: '),
        'all answers on this page come from three programs, and each function of them is proved to meet its contract: on any input they end, cannot fail, and write exactly what their definition says.'),
      make('p', {}, make('strong', {}, 'Trusted, and tried by all stored cases: '),
        'that the module of the proved program, compiled for WebAssembly, does the same; a few lines of C and JavaScript that hand it its input; and your browser. The page only draws: what you see is computed by the programs, but for the words around it.'),
      make('p', {}, 'Sum of the sources of the programs: ', make('code', {}, sum_named('crates').slice(0, 16)), '; of the page: ',
        make('code', {}, sum_named('page').slice(0, 16)), '.'),
      make('p', {}, 'Your work is kept in this browser and in the address of the page, and is sent nowhere. ',
        button('Forget all that is kept', forget, { class: 'small' }))));
}
