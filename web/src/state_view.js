// The state of a machine in words, as the program tells it.
import { make } from './elements.js';

const TITLES = { tasks: 'Tasks', queues: 'Queues of devices', blocks: 'Blocks', modules: 'Modules' };
const NONE = { tasks: 'no task', queues: 'no packet is at a device', blocks: 'no block', modules: 'no module is loaded' };

function task_row({ line, more }) {
  const [, number, at, priority, rest] = /^task ([0-9]+) at ([0-9]+), priority ([0-9]+), (.*)$/.exec(line) ?? [];
  if (!number) return make('li', {}, line, more.map((it) => make('div', { class: 'sub' }, it)));
  const [, words, , program] = /^(.*?)(, program (.*))?$/.exec(rest);
  const sign = words.includes('held') ? '⏸' : words.startsWith('runs') ? '▶' : words.startsWith('waits') ? '…' : words.startsWith('is dead') ? '†'
    : '○';
  return make('li', { class: words.startsWith('runs') ? 'is-running' : '' }, make('span', { class: 'sign', 'aria-hidden': 'true' }, sign),
    make('strong', {}, `task ${number}`), program ? ` ${program}` : '',
    `, priority ${priority}: `, make('em', {}, words), make('span', { class: 'means' }, ` at ${at}`),
      more.map((it) => make('div', { class: 'sub' }, it)));
}

/** The parts of a state, where the task that runs and those that go on say where that is. */
export function with_places({ parts, registers: { PC, T }, next }, place_in) {
  const place_of = (byte) => { const words = place_in(Number(byte)); return `${byte}${words && `, ${words}`}`; };
  const tasks = parts.tasks?.map(({ line, more }) => ({ line, more: [
    ...(T >= 5 && line.startsWith(`task ${T} `) ? [`PC is ${place_of(PC)}${next ? `; the instruction there is ${next}` : ''}`] : []),
    ...more.map((it) => it.replace(/^it goes on at byte ([0-9]+)$/, (_, byte) => `it goes on at ${place_of(byte)}`))] }));
  return { ...parts, tasks };
}

function block_row({ line }) {
  const [first, size, use] = line.split(' ');
  return make('tr', {}, make('td', {}, first), make('td', {}, size), make('td', {}, use));
}

/** The parts of a state, each under its title. */
export function state_parts(parts, wanted = ['tasks', 'queues', 'blocks', 'modules']) {
  return wanted.filter((name) => parts[name]).map((name) => {
    const rows = parts[name] ?? [];
    const body = rows.length === 0 ? make('p', { class: 'help' }, NONE[name])
      : name === 'blocks' ? make('table', { class: 'words' }, make('tr', {}, ['from', 'words', 'use'].map((it) => make('th', { scope: 'col' }, it))),
        rows.map(block_row))
        : make('ul', { class: 'rows' },
          rows.map((row) => (name === 'tasks' ? task_row(row) : make('li', {}, row.line, row.more.map((it) => make('div', { class: 'sub' }, it))))));
    return make('section', { class: 'part', 'data-part': name }, make('h3', {}, TITLES[name]), body);
  });
}
