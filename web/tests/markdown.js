// Tries the HTML that web/src/markdown.js makes: of forms, and of all pages of the repository that are named, where no mark may be left as a mark
// and each link must lead to a file and a heading: node web/tests/markdown.js PAGE..
import { existsSync, readFileSync } from 'node:fs';
import { dirname, join } from 'node:path';
import { headings, markdown } from '../src/markdown.js';

let failed = 0;
const wrong = (text) => {
  console.log(`markdown: ${text}`);
  failed += 1;
};

const FORMS = [
  ['a *b* _c_ **d `e*`** a_b_c 2 * 3 * 4', '<p>a <em>b</em> <em>c</em> <strong>d <code>e*</code></strong> a_b_c 2 * 3 * 4</p>'],
  ['`<a>` & ``b`c`` \\*d\\*', '<p><code>&#60;a&#62;</code> &#38; <code>b`c</code> *d*</p>'],
  ['[`a[1]`](b.md#c) ![d](e.svg)', '<p><a href="b.md#c"><code>a[1]</code></a> <a href="e.svg">d</a></p>'],
  ['[a](nowhere)', '<p>a</p>'],
  ['# A\n\n## A `b`, c!\n\n## A', '<h1 id="a">A</h1>\n<h2 id="a-b-c">A <code>b</code>, c!</h2>\n<h2 id="a-1">A</h2>'],
  ['- a\n  b\n  1. c\n  2. d\n- e', '<ul>\n<li>a\nb\n<ol>\n<li>c\n</li>\n<li>d\n</li>\n</ol>\n</li>\n<li>e\n</li>\n</ul>'],
  ['3. a\n\n   b\n\n4. c', '<ol start="3">\n<li><p>a</p>\n<p>b</p>\n</li>\n<li><p>c</p>\n</li>\n</ol>'],
  ['| a | b |\n|---|--:|\n| x \\| y | `p\\|q` |', '<table>\n<thead>\n<tr><th>a</th><th style="text-align:right">b</th></tr>\n</thead>\n<tbody>\n' +
    '<tr><td>x | y</td><td style="text-align:right"><code>p|q</code></td></tr>\n</tbody>\n</table>'],
  ['a:\n```hello.asm\n<b>\n\n# c\n```\nd', '<p>a:</p>\n<pre data-info="hello.asm"><code>&#60;b&#62;\n\n# c\n</code></pre>\n<p>d</p>'],
  ['a\n\n    b\n\n      c\n\nd', '<p>a</p>\n<pre><code>b\n\n  c\n</code></pre>\n<p>d</p>'],
  ['> a\n> b\n\n---', '<blockquote>\n<p>a\nb</p>\n</blockquote>\n<hr>'],
];
if (markdown('![a *b*](c.svg)', { pictures: true }) !== '<p><img src="c.svg" alt="a b"></p>\n') wrong('a picture is not shown');
for (const [text, html] of FORMS) {
  const got = markdown(text, { link: (address) => (address === 'nowhere' ? null : address) }).trimEnd();
  if (got !== html) wrong(`${JSON.stringify(text)} became ${JSON.stringify(got)}`);
}

const pages = process.argv.slice(2);
const anchors = new Map();
const anchors_of = (page) => {
  if (!anchors.has(page)) anchors.set(page, new Set(headings(readFileSync(page, 'utf8')).map(({ anchor }) => anchor)));
  return anchors.get(page);
};
let links = 0;
for (const page of pages) {
  const link = (address) => {
    links += 1;
    const [, path, anchor] = /^([^#]*)(?:#(.*))?$/.exec(address);
    const to = path ? join(dirname(page), path) : page;
    if (!existsSync(to)) wrong(`${page}: no file ${address}`);
    else if (anchor !== undefined && !anchors_of(to).has(anchor)) wrong(`${page}: no heading ${address}`);
    return address;
  };
  const words = markdown(readFileSync(page, 'utf8'), { link }).replace(/<pre[^>]*>[^]*?<\/pre>|<code>[^]*?<\/code>/g, 'code').replace(/<[^>]*>/g, '');
  for (const line of words.split('\n'))
    if (/`|\*\*|\]\(|^\s*(\||#|>|- )|(^|\s)(_[a-z]|\*[a-z][^*]*\*)|<|>/i.test(line)) wrong(`${page}: a mark is left: ${line}`);
}
if (!failed) console.log(`markdown: ${FORMS.length} forms, ${pages.length} pages and ${links} links as they are to be`);
process.exitCode = failed ? 1 : 0;
