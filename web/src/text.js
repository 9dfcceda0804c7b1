// Bytes, texts and numbers as they are shown.

/** The bytes of a text. */
export function bytes_of(text) {
  return new TextEncoder().encode(text);
}

/** A text with a letter for each byte. */
export function letters_of(bytes) {
  let text = '';
  for (let at = 0; at < bytes.length; at += 8192) text += String.fromCharCode(...bytes.subarray(at, at + 8192));
  return text;
}

/** A count with its noun: `1 step`, `2 steps`. */
export function counted(count, noun, many = `${noun}s`) {
  return `${Number(count).toLocaleString('en')} ${Number(count) === 1 ? noun : many}`;
}

/** Milliseconds in words. */
export function duration(milliseconds) {
  return milliseconds < 1000 ? `${Math.max(1, Math.round(milliseconds))} ms` : `${(milliseconds / 1000).toFixed(1)} s`;
}

/** The hex digits of a byte. */
export function hex_byte(byte) {
  return byte.toString(16).padStart(2, '0');
}

/** A word of the store as signed decimal number. */
export function signed_word(word) {
  return word | 0;
}

/** Whether a text is a decimal number of 1 to 10 digits in a range. */
export function is_number_in(text, least, most) {
  return /^[0-9]{1,10}$/.test(text) && Number(text) >= least && Number(text) <= most;
}

/** Bytes as rows of a hex view: the offset, 16 bytes, and their letters. */
export function hex_rows(bytes, most = 4096) {
  const rows = [];
  for (let at = 0; at < Math.min(bytes.length, most); at += 16) {
    const row = [...bytes.subarray(at, at + 16)];
    const digits = row.map(hex_byte).join(' ').padEnd(47);
    rows.push(`${at.toString(16).padStart(6, '0')}  ${digits}  ${row.map((it) => (it >= 32 && it < 127 ? String.fromCharCode(it) : '.')).join('')}`);
  }
  return rows.join('\n');
}

/** Saves bytes or a text as a file of the user. */
export function save_as(name, content) {
  const link = document.createElement('a');
  link.href = URL.createObjectURL(new Blob([content], { type: 'application/octet-stream' }));
  link.download = name;
  link.click();
  setTimeout(() => URL.revokeObjectURL(link.href), 10000);
}

/** Lets the user choose a file, and gives its name and text. */
export function load_file(accept, act) {
  const input = document.createElement('input');
  input.type = 'file';
  input.accept = accept;
  input.addEventListener('change', async () => {
    for (const file of input.files) act(file.name, await file.text());
  });
  input.click();
}
