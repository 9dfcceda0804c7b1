// The one store of what the page shows. Views watch parts of it and draw themselves anew when a part has changed.

/** All parts of the state; read here, and changed by `change` alone. */
export const state = {
  /** which view is shown */
  view: 'programs',
  /** what the user has written: see project.js */
  project: null,
  /** rises when the form or the tabs have to be drawn anew, and not at each letter that is typed */
  shape: 0,
  /** the name of the file whose tab is open */
  open: '',
  /** rises when another project was opened */
  opened: 0,
  /** the text that the user has written in place of the form's session, or null */
  own: null,
  /** the panel beside the editor: machine or session */
  side: 'machine',
  /** the lines in error of each file: a Map from names to lists */
  errors: new Map(),
  /** the lines in which something is strange, likewise */
  notes: new Map(),
  /** what the form makes: see session.js */
  made: null,
  /** which command runs the session: run, dump or trace; or outcomes, for many runs */
  command: 'run',
  /** what many runs are asked for: see many_runs.js */
  many: null,
  /** the last run: its input, command, status, bytes and milliseconds, or a sentence in `failed` */
  run: null,
  /** the breakpoints, each `{file, line}` */
  breaks: [],
  /** the step that Steps shows, and what the program has said of it */
  step: 0,
  moment: null,
  /** which words Steps shows, `{text, count}`, and the file whose lines it shows */
  words_from: null,
  open_source: '',
  /** the run of What happened, and the step of its cursor */
  story: null,
  cursor: 0,
  at_cursor: null,
  /** what is being done and takes long, or null */
  busy: null,
  /** a sentence for the reader, or an empty text */
  notice: '',
  /** which page of the manual, example or lab is shown */
  page: '',
  /** whether the work differs from what was opened last, and whether an earlier one is kept */
  is_changed: false,
  has_earlier: false,
};

const watchers = [];

/** Calls `act` after each change of one of these parts. */
export function watch(parts, act) {
  watchers.push({ parts, act });
}

/** Changes parts of the state, and lets those that watch them know. */
export function change(parts) {
  const changed = Object.keys(parts).filter((name) => state[name] !== parts[name]);
  Object.assign(state, parts);
  for (const { parts: watched, act } of watchers) {
    if (!watched.some((name) => changed.includes(name))) continue;
    try {
      act(state);
    } catch (error) {
      // the other views go on, and the page says it
      queueMicrotask(() => { throw error; });
    }
  }
}
