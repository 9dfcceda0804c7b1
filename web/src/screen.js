// What a machine has written, as a terminal shows it.

// the most letters that are shown; the bytes can be saved whole
const MOST_SHOWN = 100000;

/** The text that bytes, given as letters, leave on a terminal: a backspace goes back, and other control bytes are shown by their number. */
export function screen_text(letters) {
  if (!/[\x00-\x09\x0b-\x1f\x7f-\xff]/.test(letters)) return letters;
  return letters.split('\n').map(screen_line).join('\n');
}

function screen_line(line) {
  const shown = [];
  let at = 0;
  for (const letter of line) {
    if (letter === '\b') at = Math.max(0, at - 1);
    else if (letter === '\r') at = 0;
    else {
      const code = letter.charCodeAt(0);
      shown[at++] = code >= 32 && code < 127 ? letter : `‹${code.toString(16).padStart(2, '0')}›`;
    }
  }
  return shown.join('').replace(/ +$/, (blanks) => (at >= shown.length ? blanks : ''));
}

/** The end of a text of so many bytes, of which the last are given, and a sentence that says what was cut, or an empty one. */
export function cut_for_show(text, length = text.length) {
  if (length <= MOST_SHOWN) return { shown: text, said: '' };
  return {
    shown: text.slice(-MOST_SHOWN),
    said: `Only the last ${MOST_SHOWN.toLocaleString('en')} of ${length.toLocaleString('en')} bytes are shown here; Save has them all.`,
  };
}
