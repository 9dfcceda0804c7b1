// Makes an HTML page of each Markdown page of a folder, next to it: node web/pages.js FOLDER STYLE
// Links between pages then lead to the HTML; a link to a file that the folder has not becomes plain words.
import { existsSync, readFileSync, readdirSync, writeFileSync } from 'node:fs';
import { basename, dirname, join, relative } from 'node:path';
import { escaped, headings, markdown } from './src/markdown.js';

const [folder, style] = process.argv.slice(2);
const css = readFileSync(style, 'utf8');

// the pages that each page leads to, at its top
const TOP = [['START.md', 'Start'], ['docs/manual/README.md', 'Manual'], ['docs/cheat-sheet.html', 'Cheat sheet'], ['course/README.md', 'Course'], ['library/README.md', 'Library']];

for (const path of readdirSync(folder, { recursive: true }).filter((it) => it.endsWith('.md')).sort()) {
  const at = dirname(path);
  const text = readFileSync(join(folder, path), 'utf8');
  const link = (address) => {
    const [, file, anchor] = /^([^#]*)(#.*)?$/.exec(address);
    if (file && !existsSync(join(folder, at, file))) return null;
    return file.replace(/\.md$/, '.html') + (anchor ?? '');
  };
  const top = TOP.filter(([page]) => existsSync(join(folder, page)))
    .map(([page, name]) => `<a href="${escaped(relative(at, page).replace(/\.md$/, '.html'))}">${escaped(name)}</a>`);
  const title = headings(text)[0]?.text ?? basename(path);
  const html = `<!doctype html>
<html lang="en">
<meta charset="utf-8">
<meta name="viewport" content="width=device-width, initial-scale=1">
<title>${escaped(title)}</title>
<style>
${css}</style>
<nav>${top.join(' ')}</nav>
<main>
${markdown(text, { link, pictures: true })}</main>
</html>
`;
  writeFileSync(join(folder, path.replace(/\.md$/, '.html')), html);
}
