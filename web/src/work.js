// What has to be made anew when the user's work changes: the session, the errors of the files, the address, and what the browser keeps.
import { errors_in, notes_in } from './assemble.js';
import { newest } from './asking.js';
import { after_pause } from './elements.js';
import { is_assembly } from './project.js';
import { session_of } from './session.js';
import { change, state, watch } from './state.js';

const only_newest_session = newest();
const only_newest_errors = newest();

async function make_anew() {
  const { project } = state;
  try {
    const made = await only_newest_session(() => session_of(project));
    if (made && project === state.project) change({ made: { ...made, project } });
    const found = await only_newest_errors(() => errors_and_notes_of(project));
    if (found && project === state.project) change(found);
  } catch (error) {
    change({ notice: error.message });
  }
}

// The lines in error of each program, and of one in which nothing is wrong those in which something is strange.
async function errors_and_notes_of(project) {
  const errors = new Map();
  const notes = new Map();
  for (const file of project.files.filter(({ name }) => is_assembly(name))) {
    errors.set(file.name, await errors_in(file));
    if (errors.get(file.name).length === 0) notes.set(file.name, await notes_in(file));
  }
  return { errors, notes };
}

/** What is run now, as a Promise of its text; where there is none, null, and the form says why. */
export async function session_now() {
  if (state.own !== null) return state.own;
  const { project } = state;
  if (state.made?.project === project) return state.made.text;
  const made = await session_of(project);
  if (project === state.project && state.made?.project !== project) change({ made: { ...made, project } });
  return made.text;
}

/** The session that is known now, without waiting; null where there is none. */
export function known_session() {
  return state.own ?? (state.made?.project === state.project ? state.made.text : null);
}

/** What of a session says which programs are where: its files, or the bytes of a bare machine. */
function programs_in(session) {
  return session.split('\n').filter((line) => /^(FILE |:|BARE)/.test(line)).join('\n');
}

/** What the form has made, where a session has the same programs: its lines are those of the files then; else null. */
export function made_of(session) {
  const { made, project } = state;
  return made?.text && made.project === project && programs_in(session) === programs_in(made.text) ? made : null;
}

/** Which command reads a text: by its first word. */
export function command_for(text, chosen = 'run') {
  if (text.startsWith('RING ')) return 'ring';
  return text.startsWith('TRIPOS-IMAGE ') ? 'resume' : chosen;
}

/** From now on all is made anew a moment after each change. */
export function begin_work() {
  watch(['project'], after_pause(250, make_anew));
  make_anew();
}
