// Markdown as the manual and the course use it, made into HTML.
//
// The forms: headings, paragraphs, lists with `- ` or `1. ` and lists in them, tables, fenced code, code by four spaces, quotes, rules; and in
// a line code, links, pictures (as links), strong and emphasised words. A text has no HTML of its own: all that would be HTML is escaped.

const HEADING = /^ {0,3}(#{1,6}) +(.*?)(?: +#+)? *$/;
const FENCE = /^ {0,3}(`{3,}|~{3,}) *([^`\s]*)[^`]*$/;
const ITEM = /^( *)(?:[-*+]|(\d{1,9})[.)])( +)(?=\S)/;
const TABLE_RULE = /^ *\|?(?: *:?-+:? *\|)+(?: *:?-+:?)? *$/;
const RULE = /^ {0,3}(?:(?:- *){3,}|(?:\* *){3,}|(?:_ *){3,})$/;
const QUOTE = /^ {0,3}> ?/;
const CODE = /^ {4}/;

// code | escaped | picture or link | strong | emphasised by a star | emphasised by a line
const INLINE = new RegExp(
  [
    /(?<!`)(?<ticks>`+)(?!`)(?<code>[\s\S]*?)(?<!`)\k<ticks>(?!`)/,
    /\\(?<letter>[!-/:-@[-`{-~])/,
    /!?\[(?<words>(?:`[^`]*`|\[[^\]]*\]|[^[\]])*)\]\((?<address>[^()\s]*)\)/,
    /\*\*(?=\S)(?<strong>(?:`[^`]*`|[^`])+?)(?<!\s)\*\*/,
    /(?<![\w*])\*(?=[^\s*])(?<star>(?:`[^`]*`|[^`*])+)(?<!\s)\*(?![\w*])/,
    /(?<!\w)_(?=[^\s_])(?<line>(?:`[^`]*`|[^`_])+)(?<!\s)_(?!\w)/,
  ].map((form) => form.source).join('|'),
  'g',
);

/** A text in which each character that means something in HTML is escaped. */
export function escaped(text) {
  return text.replace(/[&<>"']/g, (letter) => `&#${letter.charCodeAt(0)};`);
}

/** The words of a line of Markdown, without its marks. */
function plain_words(text) {
  return text.replace(INLINE, (...match) => {
    const { code, letter, words, strong, star, line } = match.at(-1);
    return code ?? letter ?? plain_words(words ?? strong ?? star ?? line);
  });
}

/** A line of Markdown as HTML; `places` has the options of `markdown`. */
function line_html(text, places) {
  let html = '';
  let at = 0;
  for (const match of text.matchAll(INLINE)) {
    const { code, letter, words, address, strong, star, line } = match.groups;
    html += escaped(text.slice(at, match.index));
    at = match.index + match[0].length;
    if (code !== undefined) html += `<code>${escaped(code.replace(/\n/g, ' ').replace(/^ (.*\S.*) $/, '$1'))}</code>`;
    else if (letter !== undefined) html += escaped(letter);
    else if (address !== undefined) {
      const to = places.link(address);
      if (to === null) html += line_html(words, places);
      else if (places.pictures && match[0].startsWith('!')) html += `<img src="${escaped(to)}" alt="${escaped(plain_words(words))}">`;
      else html += `<a href="${escaped(to)}">${line_html(words, places)}</a>`;
    } else if (strong !== undefined) html += `<strong>${line_html(strong, places)}</strong>`;
    else html += `<em>${line_html(star ?? line, places)}</em>`;
  }
  return html + escaped(text.slice(at));
}

/** The cells of a row of a table. */
function cells(row) {
  return row.trim().replace(/^\|/, '').replace(/(?<!\\)\|$/, '').split(/(?<!\\)\|/).map((cell) => cell.trim().replace(/\\\|/g, '|'));
}

function starts_block(line) {
  return HEADING.test(line) || FENCE.test(line) || ITEM.test(line) || QUOTE.test(line) || RULE.test(line);
}

/**
 * The blocks of lines of Markdown, in order, each with its `kind`: heading (`depth`, `words`), code (`info`, `text`), table (`sides`, `rows`), list
 * (`first`, which is null where it has no numbers, `loose`, `items` of blocks), quote (`blocks`), rule, and paragraph (`words`).
 */
function blocks_of(lines) {
  const found = [];
  let at = 0;
  const take_while = (so) => {
    const begin = at;
    while (at < lines.length && so(lines[at])) at += 1;
    return lines.slice(begin, at);
  };
  while (at < lines.length) {
    const line = lines[at];
    let match;
    if (!line.trim()) at += 1;
    else if ((match = HEADING.exec(line))) {
      found.push({ kind: 'heading', depth: match[1].length, words: match[2] });
      at += 1;
    } else if ((match = FENCE.exec(line))) {
      const [, fence, info] = match;
      at += 1;
      const text = take_while((it) => !(it.trim().startsWith(fence) && /^(`+|~+)$/.test(it.trim())));
      at += 1;
      found.push({ kind: 'code', info, text: text.join('\n') });
    } else if (RULE.test(line)) {
      found.push({ kind: 'rule' });
      at += 1;
    } else if (ITEM.test(line)) found.push(list());
    else if (QUOTE.test(line)) found.push({ kind: 'quote', blocks: blocks_of(take_while((it) => QUOTE.test(it)).map((it) => it.replace(QUOTE, ''))) });
    else if (CODE.test(line)) {
      const text = take_while((it) => CODE.test(it) || !it.trim()).map((it) => it.slice(4)).join('\n');
      found.push({ kind: 'code', info: '', text: text.replace(/\s+$/, '') });
    } else if (line.includes('|') && TABLE_RULE.test(lines[at + 1] ?? '')) {
      const [head, rule, ...rows] = take_while((it) => it.includes('|'));
      const sides = cells(rule).map((it) => (it.endsWith(':') ? (it.startsWith(':') ? 'center' : 'right') : ''));
      found.push({ kind: 'table', sides, rows: [head, ...rows].map(cells) });
    } else {
      const begin = at;
      const words = take_while((it) => it.trim() && (at === begin || !starts_block(it)));
      found.push({ kind: 'paragraph', words: words.map((it) => it.trim()).join('\n') });
    }
  }
  return found;

  function list() {
    const [, depth, number] = ITEM.exec(lines[at]);
    const items = [];
    let loose = false;
    let blank = false;
    for (let match; at < lines.length && (match = ITEM.exec(lines[at])) && match[1] === depth && !match[2] === !number; ) {
      loose ||= blank;
      const inside = match[0].length;
      const item = [lines[at].slice(inside)];
      at += 1;
      for (; at < lines.length; at += 1) {
        const line = lines[at];
        if (!line.trim()) item.push('');
        else if (/^ */.exec(line)[0].length >= inside) item.push(line.slice(inside));
        else if (item.at(-1) !== '' && !starts_block(line)) item.push(line.trim());
        else break;
      }
      blank = item.at(-1) === '';
      const blocks = blocks_of(item);
      // an empty line between two blocks of an item, not in its code
      loose ||= blocks.length > 1 && item.some((it, i) => it === '' && item.slice(i).some(Boolean)) && blocks.some((it, i) => i > 0 && it.kind === 'paragraph');
      items.push(blocks);
    }
    return { kind: 'list', first: number === undefined ? null : Number(number), loose, items };
  }
}

/** Gives the anchor of each heading in order: its words in lower case, hyphens for spaces, and of all else letters, digits, - and _ alone. */
function anchors() {
  const times = new Map();
  return (words) => {
    const anchor = plain_words(words).toLowerCase().replace(/[^\p{L}\p{M}\p{N} _-]/gu, '').replace(/ /g, '-');
    const before = times.get(anchor) ?? 0;
    times.set(anchor, before + 1);
    return before ? `${anchor}-${before}` : anchor;
  };
}

function html_of(blocks, places, anchor) {
  const inner = (text) => line_html(text, places);
  return blocks.map((block) => {
    switch (block.kind) {
      case 'heading': return `<h${block.depth} id="${escaped(anchor(block.words))}">${inner(block.words)}</h${block.depth}>\n`;
      case 'code': return `<pre${block.info && ` data-info="${escaped(block.info)}"`}><code>${escaped(block.text)}\n</code></pre>\n`;
      case 'rule': return '<hr>\n';
      case 'quote': return `<blockquote>\n${html_of(block.blocks, places, anchor)}</blockquote>\n`;
      case 'paragraph': return `<p>${inner(block.words)}</p>\n`;
      case 'table': return table(block);
      case 'list': return list(block);
      default: throw new Error(`no block is a ${block.kind}`);
    }
  }).join('');

  function table({ sides, rows: [head, ...rows] }) {
    const row = (name, cells) => `<tr>${sides.map((side, i) => `<${name}${side && ` style="text-align:${side}"`}>${inner(cells[i] ?? '')}</${name}>`).join('')}</tr>\n`;
    return `<table>\n<thead>\n${row('th', head)}</thead>\n<tbody>\n${rows.map((it) => row('td', it)).join('')}</tbody>\n</table>\n`;
  }

  function list({ first, loose, items }) {
    const name = first === null ? 'ul' : 'ol';
    const start = first === null || first === 1 ? '' : ` start="${first}"`;
    const item = (blocks) => blocks.map((it) => (it.kind === 'paragraph' && !loose ? `${inner(it.words)}\n` : html_of([it], places, anchor))).join('');
    return `<${name}${start}>\n${items.map((it) => `<li>${item(it)}</li>\n`).join('')}</${name}>\n`;
  }
}

/**
 * A text of Markdown as HTML. `link` gives the address for one that the text has, such as `tasks.md#queues`, or null where there is none: then
 * the words of the link are written alone. With `pictures` a picture is shown, or else it is a link. The info of fenced code is in `data-info` of
 * its <pre>.
 */
export function markdown(text, { link = (address) => address, pictures = false } = {}) {
  return html_of(blocks_of(text.split(/\r?\n/)), { link, pictures }, anchors());
}

/** The headings of a text, in order, lists and quotes left out: `{depth, text, anchor}`. */
export function headings(text) {
  const anchor = anchors();
  return blocks_of(text.split(/\r?\n/))
    .filter((block) => block.kind === 'heading')
    .map(({ depth, words }) => ({ depth, text: plain_words(words), anchor: anchor(words) }));
}
