// Opens other work in place of what is there, without throwing anything away.
import { ask_user } from './dialogs.js';
import { earlier_work, keep_as_earlier, work_now } from './memory.js';
import { empty_project, open_project } from './project.js';
import { run_now } from './run.js';
import { change, state } from './state.js';
import { save_as } from './text.js';

/** All of the user's work as the text of a file. */
function work_text() {
  return `${JSON.stringify(work_now(), null, 1)}\n`;
}

/** Saves all of the user's work to a file. */
export function save_work() {
  save_as(`${state.project.title.replace(/[^A-Za-z0-9._-]+/g, '-') || 'work'}.kijolpe.json`, work_text());
}

/** Opens other work, `{project, own, command}`; where the work of now was changed, it asks first, and keeps it. Gives whether it was opened. */
export async function open_instead(work, { view = 'programs', is_run = true } = {}) {
  if (state.is_changed) {
    const chosen = await ask_user(`Open "${work.project.title}"?`,
      `What you have changed in "${state.project.title}" is kept as your earlier work, until you open something else again.`,
      [['Cancel', 'no'], ['Save to a file, then open', 'save'], ['Open', 'open']]);
    if (chosen === 'save') save_work();
    if (chosen !== 'save' && chosen !== 'open') return false;
    keep_as_earlier();
  }
  open_project(work.project, { ...work, view });
  change({ has_earlier: earlier_work() !== null });
  if (is_run) await run_now();
  return true;
}

/** Goes back to the work that was there before another one was opened, and keeps that one. */
export async function bring_back() {
  const work = earlier_work();
  if (!work) return;
  keep_as_earlier();
  open_project(work.project, work);
}

/** An empty work with one program. */
export function new_work() {
  const text = '; Writes A, and stops.\n        L 19            ; call 19 writes a character\n        SP3\n        L 65            ; A\n        SP4\n        SYS\n'
    + '        L0              ; call 0 stops the machine\n        SP3\n        SP4\n        SYS\n';
  return open_instead({ project: { ...empty_project(), files: [{ name: 'program.asm', text }] }, own: null, command: 'run' }, { is_run: false });
}
