// What an instruction or directive does, in the words of the manual's tables.
import { files } from './files.js';

const effects = new Map();

/** Reads the tables; comes before all else. */
export async function read_instructions() {
  const map = await files();
  for (const [, name, form,
    effect] of (map.get('docs/manual/instructions.md') ?? '').matchAll(/^\| ([A-Z][A-Z0-9]*\$?) \| [0-9]+ \| ([a-z0-9 +]+) \| (.*) \|$/gm)) effects.set(name, { form, effect });
  for (const [, name, effect] of (map.get('docs/manual/assembly.md') ?? '').matchAll(/^\| `(DB|DH|DW|RES|DA|ALIGN|GLOBAL) (?:n|label|n label)` \| (.*) \|$/gm)) effects.set(name, { form: 'directive', effect: effect.replace(/`/g, '') });
}

/** What an instruction with its operand does, in words; an empty text where there is none of this name. */
export function effect_of(name, operand = '') {
  const known = effects.get(name);
  if (!known) return '';
  if (known.form === 'directive' || operand === '') return with_load(known.effect);
  const letter = ['relative', 'indirect'].includes(known.form) ? 't' : 'n';
  return with_load(known.effect.replace(new RegExp(`(?<![A-Za-z])${letter}(?![A-Za-z])`, 'g'), operand));
}

function with_load(effect) {
  return effect.startsWith('load ') ? `B := A, then A := ${effect.slice(5)}` : effect;
}

/** What a line of assembly does: `{name, effect}`, or null where it has no instruction. */
export function help_for_line(line) {
  const found = /^ *(?:[A-Za-z][A-Za-z0-9]*: *)?([A-Z][A-Z0-9]*\$?)(?: +([^ ;]+))?/.exec(line.replace(/;.*/, ''));
  if (!found || !effects.has(found[1])) return null;
  return { name: `${found[1]}${found[2] ? ` ${found[2]}` : ''}`, effect: effect_of(found[1], found[2]) };
}
