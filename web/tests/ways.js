// Drives the page in a headless Chromium as a user does, and compares what it shows with what the programs answer in node.
import { execFileSync } from 'node:child_process';
import { mkdtempSync, readFileSync, rmSync, writeFileSync } from 'node:fs';
import { tmpdir } from 'node:os';
import { dirname, join } from 'node:path';
import { fileURLToPath } from 'node:url';
import { gunzipSync } from 'node:zlib';
import { files_of_archive } from '../src/files.js';
import { run } from '../src/program.js';
import { start } from './chromium.js';

const top = join(dirname(fileURLToPath(import.meta.url)), '../..');
const page = process.argv[2] ?? join(top, 'web/page.html');
const html = readFileSync(page, 'latin1');
const part = (id) => Buffer.from(new RegExp(`id="${id}">([^<]*)<`).exec(html)[1], 'base64');
const modules = Object.fromEntries(['tripos', 'tripos_show', 'tripos_tools'].map((name) => [name, new WebAssembly.Module(gunzipSync(part(`program-${name}`)))]));
const map = files_of_archive(gunzipSync(part('files')));
const answered = (program, words, input) => Buffer.from(run(modules[program], words, new TextEncoder().encode(input)).bytes).toString('latin1');
const before_closing = (text) => text.replace(/\n\* stopped after [^\n]*\n$/, '');

const failures = [];
let tries = 0;
function same(what, shown, wanted) {
  tries += 1;
  if (shown !== wanted) failures.push(`${what}: the page shows ${JSON.stringify(shown)?.slice(0, 300)}, and not ${JSON.stringify(wanted)?.slice(0, 300)}`);
}

const folder = mkdtempSync(join(tmpdir(), 'ways-'));
const tab = await start({ width: 1366, height: 768 });

const text_of = (selector) => tab.value(`document.querySelector(${JSON.stringify(selector)})?.textContent`);
const value_of = (selector) => tab.value(`document.querySelector(${JSON.stringify(selector)})?.value`);
const ready = () => tab.until("document.body.dataset.ready === 'yes'", 10);

async function go(view) {
  await tab.click(`#way-${view}`);
  await tab.until(`document.body.dataset.view === '${view}'`);
}

async function set(selector, value, kind = 'input') {
  await tab.value(`(() => { const it = document.querySelector(${JSON.stringify(selector)}); it.value = ${JSON.stringify(value)}; it.dispatchEvent(new Event('${kind}', { bubbles: true })); })()`);
}

/** The session that the page has now, once it is made. */
async function session() {
  await tab.click('#side-session');
  await tab.until("document.getElementById('session').value.startsWith('TRIPOS')");
  return value_of('#session');
}

async function run_page() {
  await tab.click('#run');
  await tab.until("/^[✓✕]/.test(document.getElementById('ending').textContent) && !document.getElementById('run').disabled");
}

/** Opens an example as a user does, and leaves what was changed. */
async function open_example(name) {
  await go('learn');
  await tab.click(`[data-page="examples/${name}"]`);
  await tab.until(`document.querySelector('.page h1')?.textContent === 'Example ${name}'`);
  await tab.click('#open-example');
  await tab.until(`document.body.dataset.view === 'programs' || document.querySelector('dialog[open]')`);
  if (await tab.value("document.querySelector('dialog[open]') !== null")) await tab.click('dialog[open] .choices button:last-child');
  await tab.until(`document.getElementById('title')?.value === 'Example ${name}'`);
  await tab.until("/^[✓✕]/.test(document.getElementById('ending').textContent)");
}

const plain = (text) => text.replace(/&lt;/g, '<').replace(/&gt;/g, '>').replace(/&amp;/g, '&');
const joined = (lines) => lines.join(' ').replace(/\s+/g, ' ');

/** Compares the picture that is shown with one that bin/picture has drawn: its rows and its words. */
async function same_picture(path, drawn) {
  const shown = JSON.parse(await tab.value("JSON.stringify(['step', 'words'].map((kind) => [...document.querySelectorAll(`svg.picture text.${kind}`)].map((it) => it.textContent)))"));
  same(`the rows of ${path}`, shown[0].join(), [...drawn.matchAll(/class="step end">([0-9]+)</g)].map(([, step]) => step).join());
  const wanted = joined([...drawn.matchAll(/class="words[^"]*">([^<]*)</g)].map(([, words]) => plain(words))).replace(/the machine stopped after .*/, '');
  same(`the words of ${path}`, joined(shown[1]).slice(0, wanted.length), wanted);
}

// a function with the name that a BCPL compiler leaves before it, and a program without names
const NAMED = `        ALIGN 4
        DW 0xDFDF
        DW 0x7669640b   ; divide
        DW 0x20656469
        DW 0x20202020
divide: LP3
        SP4
        L9              ; release(0), which is refused
        SP3
        SYS
        L0
        DIV
        RTN
        ALIGN 4
        DW 0xDFDF
        DW 0x61747307   ; start
        DW 0x20207472
start:  LF divide
        K5
        RTN
GLOBAL 1 start
`;
const UNNAMED = 'GLOBAL 1 start\nstart: L1\nSP3\nL10\nSP4\nSYS\nL0\nDIV\nRTN\n';
const UNSET = 'GLOBAL 1 start\nstart: K8G 40\nRTN\n';

/** What a script writes. */
const written_by = (script, ...words) => execFileSync(join(top, script), words, { encoding: 'latin1' });

const ways = {
  async 'edit and run'() {
    same('the first run', await text_of('#console'), 'ABC');
    await tab.click('.file-tab:nth-child(2) button');
    await tab.click('textarea[data-file="client.asm"]');
    const text = (await value_of('textarea[data-file="client.asm"]')).replace('L 64 ', 'L 70 ').replace('L 67', 'L 73');
    await tab.value("document.querySelector('textarea[data-file=\"client.asm\"]').select()");
    await tab.type(text);
    await tab.press('Control+Enter');
    await tab.until("document.getElementById('console').textContent !== 'ABC'");
    const made = await session();
    same('what was edited', await text_of('#console'), before_closing(answered('tripos', ['run'], made)));
    same('what it writes', await text_of('#console'), 'GHI');
    await tab.value("document.querySelector('textarea[data-file=\"client.asm\"]').focus()");
    await tab.value("document.execCommand('undo')");
    same('what was typed can be undone', (await value_of('textarea[data-file="client.asm"]')).includes('L 64 '), true);
  },

  async 'an error at its line'() {
    await open_example('hello');
    await tab.value("document.querySelector('textarea[data-file=\"program.asm\"]').select()");
    await tab.click('textarea[data-file="program.asm"]');
    await tab.value("document.querySelector('textarea[data-file=\"program.asm\"]').select()");
    const wrong = '        L 19\n        SP3\n        L 720\n        LOAD 1\n        SYS\n';
    await tab.type(wrong);
    await tab.until("document.querySelectorAll('.error-line').length === 2");
    const [, line, code] = /line ([0-9]+) code ([0-9]+)/.exec(answered('tripos', ['asm'], wrong));
    same('the line in error', await tab.value("document.querySelector('.error-line').dataset.line"), line);
    same('its code', new RegExp(`code ${code}\\)`).test(await text_of('.error-line')), true);
    const told = /^line [0-9]+: (.*)$/m.exec(answered('tripos_tools', ['asm-errors'], wrong))[1];
    same('what was expected', (await text_of('.error-line')).includes(told), true);
    same('the mark at the line', await tab.value("[...document.querySelectorAll('.gutter .has-error')].map((it) => it.dataset.line).join()"), '3,4');
    await tab.click('#run');
    await tab.until("document.getElementById('ending').textContent.includes('program.asm, line 3')");
    same('a refusal names the line', (await text_of('#problem')).includes('program.asm, line 3'), true);
  },

  async 'a program in which something is strange'() {
    await open_example('hello');
    await tab.click('textarea[data-file="program.asm"]');
    await tab.value("document.querySelector('textarea[data-file=\"program.asm\"]').select()");
    const strange = '        LLL text\n        SP3\ntext:   DB 72\n';
    await tab.type(strange);
    await tab.until("document.querySelectorAll('.note-line').length === 2");
    const told = [...answered('tripos_tools', ['asm-notes'], strange).matchAll(/^line ([0-9]+): (.*)$/gm)];
    same('the strange lines', await tab.value("[...document.querySelectorAll('.note-line')].map((it) => it.dataset.line).join()"), told.map(([, line]) => line).join());
    same('what is strange there', (await text_of('.note-line')).includes(told[0][2]), true);
    same('nothing is wrong', await tab.value("document.querySelectorAll('.error-line').length"), 0);
  },

  async 'a program in friendly assembly'() {
    await open_example('hello');
    await tab.value("[...document.querySelectorAll('.file-tools button')].find((it) => it.textContent === 'Rename').click()");
    await tab.until("document.querySelector('dialog[open] input') !== null");
    await set('dialog[open] input', 'program.s');
    await tab.click('dialog[open] input');
    await tab.press('Enter');
    const area = 'textarea[data-file="program.s"]';
    await tab.until(`document.querySelector('${area}') !== null`);
    const type = async (text) => {
      await tab.click(area);
      await tab.value(`document.querySelector('${area}').select()`);
      await tab.type(text);
    };
    const wrong = "SET wrch 19\n        L wrch\n        L '\\n'\n        L 0x1g\n";
    await type(wrong);
    await tab.until("document.querySelectorAll('.error-line').length === 2");
    const told = [...answered('tripos_tools', ['asm'], wrong).matchAll(/^line ([0-9]+): (.*)$/gm)];
    same('the lines of wrong forms', await tab.value("[...document.querySelectorAll('.error-line')].map((it) => it.dataset.line).join()"), told.map(([, line]) => line).join());
    same('what is wrong there', (await text_of('.error-line')).includes(told[0][2]), true);
    const right = "SET wrch 19 ; writes a character\n        L wrch\n        SP3\n        L 'Q'\n        SP4\n        SYS\n        L 0x0\n        SP3\n        SP4\n        SYS\n";
    await type(right);
    await tab.until("document.querySelectorAll('.error-line').length === 0");
    await run_page();
    const made = await session();
    same('what it writes', await text_of('#console'), before_closing(answered('tripos', ['run'], made)));
    same('which is its character', await text_of('#console'), 'Q');
    const module = answered('tripos', ['asm'], answered('tripos_tools', ['asm'], right)).split('\n');
    // the session has the bytes of a word from the lowest on
    const code = module[1].split(' ').slice(1, 4).map((word) => word.match(/../g).reverse().join('')).join('');
    same('its code is in the session', made.includes(code), true);
  },

  async 'many runs'() {
    await open_example('lost-update');
    const made = await session();
    writeFileSync(join(folder, 'many'), made);
    const table_by = (...words) => {
      try {
        return written_by('bin/tries', join(folder, 'many'), ...words).replace(join(folder, 'many'), 'this session');
      } catch (error) {
        // its status says whether there is more than one outcome
        return error.stdout.replace(join(folder, 'many'), 'this session');
      }
    };
    const shows = async (words, ...wanted) => {
      await tab.click('#run');
      await tab.until(`document.getElementById('ending').textContent.includes(${JSON.stringify(words)})`, 30);
      same(`what is shown with: ${words}`, await text_of('#console'), wanted.length > 0 ? table_by(...wanted) : '');
    };
    await set('#command', 'outcomes', 'change');
    await tab.until("!document.getElementById('many').hidden");
    await set('#many-values', '20-60, 100');
    await shows('The runs come to 2 outcomes.', '--tick', '20-60,100');
    const to_form = async () => {
      await tab.click('#to-form');
      await tab.until("document.querySelector('dialog[open]') !== null");
      await tab.click('dialog[open] .choices button:last-child');
    };
    await tab.click('.said [data-value="42"]');
    await tab.until("document.getElementById('session').value.includes('TICK 42')");
    await tab.until("document.getElementById('console').textContent.length === 1");
    const own = await value_of('#session');
    same('the session with the value of an outcome', own,
      answered('tripos_show', ['variant'], `word 4\ntick\nword 2\n42\nfile 12 ${made.length}\nthis session\n${made}\n`));
    same('its run', await text_of('#console'), before_closing(answered('tripos', ['run'], own)));
    await to_form();
    await set('#command', 'outcomes', 'change');
    await set('#many-values', '20-41');
    await shows('Each run comes to the same.', '--tick', '20-41');
    await set('#many-what', 'stack', 'change');
    await set('#many-number', '6');
    await set('#many-values', '19-25');
    await shows('The runs come to 2 outcomes.', '--stack', '6', '19-25');
    await set('#many-number', '9');
    await shows('this session has the tasks 6, 5, and no task 9');
    await set('#many-values', '20-x');
    await shows('and not 20-x');
    await set('#session', made.replace(/^TICK .*/m, 'TICK 0'));
    await set('#many-values', '20');
    await tab.click('#run');
    await tab.until("document.getElementById('ending').textContent.includes('The text is refused')");
    same('what is wrong in a refused text', /:\s*line [0-9]+: /.test(await text_of('#ending')), true);
    await to_form();
    await set('#command', 'run', 'change');
  },

  async 'a module read back'() {
    const globals_by = (...paths) => {
      try {
        return written_by('bin/needs', ...paths);
      } catch (error) {
        // its status says whether one is not set
        return error.stdout;
      }
    };
    await open_example('hello');
    const module = readFileSync(join(top, 'archive/queens/queens.module'), 'latin1');
    await tab.click('#new-text');
    await tab.until("document.querySelector('dialog[open] input') !== null");
    await set('dialog[open] input', 'queens.module');
    await tab.click('dialog[open] .primary');
    await tab.until("document.querySelector('.file-tab.is-open')?.textContent.startsWith('queens.module')");
    same('no module yet', await tab.value("document.getElementById('of-module').hidden"), true);
    await set('.editor-body textarea', module);
    await tab.until("!document.getElementById('of-module').hidden");
    await tab.click('#its-globals');
    await tab.until("document.querySelector('dialog[open] pre') !== null");
    const bundle = `word 1\n-\nfile 13 ${module.length}\nqueens.module\n${module}\n`;
    same('the globals of a module', await text_of('dialog[open] pre'), answered('tripos_tools', ['needs'], bundle));
    await tab.click('dialog[open] .choices button:last-child');
    await tab.click('#as-assembly');
    await tab.until("document.querySelector('.file-tab.is-open')?.textContent.startsWith('queens.asm')");
    const assembly = await value_of('.editor-body textarea');
    same('the assembly of a module', assembly, answered('tripos_tools', ['unasm'], bundle));
    same('it makes the module again', answered('tripos', ['asm'], assembly), module);
    await set('.editor-body textarea', `${assembly}; more\n`);
    await tab.click('.file-tab [title^="queens.module"]');
    await tab.until("!document.getElementById('of-module').hidden");
    await set('.editor-body textarea', module.slice(0, 200));
    await tab.click('#as-assembly');
    await tab.until("document.querySelector('.notice').textContent.includes('the text ends inside the hunk')");
    await tab.click('.notice button');
    await set('.editor-body textarea', module);
    await tab.click('#new-text');
    await tab.until("document.querySelector('dialog[open] input') !== null");
    await set('dialog[open] input', 'libhdr.set');
    await tab.click('dialog[open] .primary');
    await tab.until("document.querySelector('.file-tab.is-open')?.textContent.startsWith('libhdr.set')");
    await set('.editor-body textarea', readFileSync(join(top, 'library/libhdr.set'), 'latin1'));
    await tab.click('.file-tab [title^="queens.module"]');
    await tab.until("!document.getElementById('of-module').hidden");
    await tab.click('#its-globals');
    await tab.until("document.querySelector('dialog[open] pre') !== null");
    writeFileSync(join(folder, 'queens.module'), module);
    same('its globals with names', await text_of('dialog[open] pre'),
      globals_by(join(folder, 'queens.module'), 'library/libhdr.set').replace(join(folder, 'queens.module'), 'queens.module'));
    await tab.click('dialog[open] .choices button:last-child');
  },

  async 'steps forth and back'() {
    await open_example('recursion');
    const made = await session();
    await go('steps');
    const at = async (step) => {
      await tab.until(`document.getElementById('step').value === '${step}' && document.getElementById('slider').value === '${step}' && /After/.test(document.getElementById('said').textContent)`);
      const wanted = /REGS (.*)/.exec(answered('tripos', ['debug'], `${made}STEP ${step}\nREGS\n`))[1];
      const shown = await tab.value("['A', 'B', 'C', 'P', 'G', 'PC', 'T'].map((name) => `${name}=${document.querySelector(`[data-register=${name}]`).textContent}`).join(' ')");
      same(`the registers after ${step} steps`, shown, wanted);
    };
    await set('#step', '12', 'change');
    await at(12);
    await tab.click('#forth');
    await at(13);
    await tab.click('#back');
    await tab.until("document.getElementById('step').value === '12'");
    await tab.click('#back');
    await at(11);
    const line = await tab.value("document.querySelector('.source .is-now').dataset.line");
    same('the line of the next instruction is marked', Number(line) > 0, true);
    // a breakpoint at this line, met again from the beginning
    await tab.click('.source .is-now .number');
    await tab.click('.controls button:first-child');
    await tab.until("document.getElementById('step').value === '0'");
    await tab.click('#go-on');
    await tab.until("document.getElementById('step').value !== '0'");
    same('the breakpoint is met at its line', await tab.value("document.querySelector('.source .is-now').dataset.line"), line);
    const first = await value_of('#step');
    await tab.click('#go-on');
    await tab.until(`Number(document.getElementById('step').value) > ${first}`);
    await tab.click('#go-back');
    await tab.until(`document.getElementById('step').value === '${first}'`);
    same('it was met last at the step before', await value_of('#slider'), first);
    await set('#slider', '20');
    await at(20);
  },

  async 'short words'() {
    await open_example('recursion');
    const made = await session();
    await go('steps');
    await tab.until("/After/.test(document.getElementById('said').textContent)");
    await tab.click('#typed-words summary');
    for (const word of ['s 5', 'r']) {
      await tab.click('#typed-word');
      await tab.type(word);
      await tab.press('Enter');
      await tab.until(`document.getElementById('typed-words-told').textContent.includes('> ${word}\\n')`);
    }
    const of_steps = (text) => text.split('\n').filter((line) => /^(at|REGS) /.test(line)).join();
    const shown = await text_of('#typed-words-told');
    same('the words show what the debugger does', of_steps(shown), of_steps(answered('tripos', ['debug'], `${made}STEP 5\nREGS\n`)));
    same('they show the line of assembly', /^ {2}\S+\.asm:[0-9]+/m.test(shown), true);
  },

  async 'a session in error'() {
    await open_example('hello');
    const wrong = (await session()).replace(/^STORE /m, 'STOER ').replace(/^GO /m, 'GO 0x');
    await set('#session', wrong);
    await tab.click('#run');
    await tab.until("/refused/.test(document.getElementById('ending').textContent)");
    const told = answered('tripos_show', ['errors'], `word 7\nsession\nfile 0 ${wrong.length}\n\n${wrong}\n`);
    same('both lines are in error', [...told.matchAll(/^line [0-9]+: /gm)].length, 2);
    same('the first error is said', (await text_of('#ending')).includes(`${told.split('\n')[0]}.`), true);
    same('all errors are shown', await text_of('#console'), told);
  },

  async 'what happened'() {
    await open_example('packets');
    const made = await session();
    await go('happened');
    await tab.until("document.querySelector('svg.picture') && document.querySelectorAll('.spot').length > 5");
    const log = answered('tripos_show', ['log'], made);
    const written = [...log.matchAll(/ console "(.*)"$/gm)].map(([, letters]) => `writes "${letters}"`).join();
    same('what is written is in the picture',
      await tab.value("[...document.querySelectorAll('svg.picture text')].map((it) => it.textContent).filter((it) => it.startsWith('writes')).join()"), written);
    const accepted = [...log.matchAll(/ accept packet /g)].length;
    same('an arrow for each packet', await tab.value("document.querySelectorAll('svg.picture line.send, svg.picture line.return').length - 2"),
      accepted);
    // where the picture is drawn anew after the click, its cursor is at the start again
    const is_there = "document.getElementById('cursor').value === '24' && document.getElementById('happened-said').textContent.startsWith('After 24 ')";
    for (let clicks = 0; clicks < 3 && !(await tab.value(is_there)); clicks++) {
      await tab.click('.spot[data-step="24"]');
      await tab.until(is_there, 5).catch(() => {});
    }
    await tab.until(is_there);
    const told = answered('tripos_show', ['state'], made.replace(/^GO .*/m, 'GO 24'));
    const tasks = [...told.matchAll(/^task ([0-9]+) at ([0-9]+), priority ([0-9]+)/gm)].map(([, number]) => `task ${number}`).join();
    await tab.until(`[...document.querySelectorAll('#happened-state [data-part=tasks] strong')].map((it) => it.textContent).join() === ${JSON.stringify(tasks)}`);
    same('the log is at the cursor', await tab.value("document.querySelector('#log .is-now').dataset.step"), '24');
    same('the state is at the cursor', (await text_of('#happened-said')).includes('After 24 steps'), true);
  },

  async 'pictures'() {
    for (const path of [...map.keys()].filter((it) => it.endsWith('/picture.svg'))) {
      await open_example(path.slice('examples/'.length, -'/picture.svg'.length));
      await go('happened');
      await tab.until("document.querySelectorAll('svg.picture .spot').length > 5 && document.getElementById('happened-said').textContent !== ''");
      await same_picture(path, String(map.get(path)));
    }
  },

  async 'the terminal'() {
    await go('terminal');
    await tab.until("document.getElementById('terminal').textContent.includes('>')");
    await tab.click('#terminal');
    for (const letter of 'hello') await tab.press(letter);
    await tab.press('Enter');
    await tab.until("/Hello\\n> /.test(document.getElementById('terminal').textContent)");
    const shown = (await text_of('#terminal')).replace('▏', '');
    await tab.click('#record');
    await tab.until("document.body.dataset.view === 'programs' && document.getElementById('session').value.includes('KEY')");
    const record = await value_of('#session');
    same('the record writes the same', before_closing(answered('tripos', ['run'], record)), shown);
  },

  async 'a link'() {
    await open_example('shell');
    const made = await session();
    await tab.until("location.hash.startsWith('#run=')");
    await new Promise((resolve) => setTimeout(resolve, 700));
    const hash = (await tab.value('location.hash')).slice(1);
    await tab.value('localStorage.clear()');
    await tab.open(page, hash);
    await ready();
    await tab.until("/^✓/.test(document.getElementById('ending').textContent)");
    same('the session of the link', await session(), made);
    same('its run', await text_of('#console'), before_closing(answered('tripos', ['run'], made)));
  },

  async 'a saved machine'() {
    await open_example('packets');
    const made = await session();
    await go('saved');
    await set('#save-at', '50');
    await tab.click('#save-machine');
    await tab.until("document.getElementById('saved-text').value.startsWith('TRIPOS-IMAGE')");
    const saved = await value_of('#saved-text');
    same('the saved machine', saved, answered('tripos', ['save'], made.replace(/^GO .*/m, 'GO 50')));
    await tab.downloads(folder);
    await tab.click('#saved-file');
    await tab.click('#resume');
    await tab.until("document.getElementById('saved-output').textContent !== ''");
    same('what it goes on to write', await text_of('#saved-output'),
      before_closing(answered('tripos', ['resume'], saved.replace(/^GO .*/m, 'GO 1000'))));
    same('so the run is whole', `${before_closing(answered('tripos', ['run'], made.replace(/^GO .*/m, 'GO 50')))}${await text_of('#saved-output')}`,
      before_closing(answered('tripos', ['run'], made)));
  },

  async 'all examples'() {
    const names = [...new Set([...map.keys()].filter((path) => /^examples\/.*\/session$/.test(path)).map((path) => path.split('/')[1]))];
    for (const name of names) {
      await open_example(name);
      same(`the session of ${name}`, await session(), String(map.get(`examples/${name}/session`)));
      same(`${name} is made by the form`, await tab.value("document.getElementById('to-form').hidden"), true);
    }
  },

  async 'the keys'() {
    await tab.click('#new');
    await tab.until("document.querySelector('dialog[open]') || document.getElementById('title').value === 'Untitled'");
    if (await tab.value("document.querySelector('dialog[open]') !== null")) await tab.click('dialog[open] .choices button:last-child');
    await tab.until("document.getElementById('title').value === 'Untitled'");
    await tab.click('textarea[data-file="program.asm"]');
    await tab.value("document.querySelector('textarea[data-file=\"program.asm\"]').select()");
    await tab.press('Backspace');
    for (const key of ['a', ':', 'Tab', 'L', '7', 'Enter', 'J', ' ', 'a']) await tab.press(key);
    same('Tab and Enter keep the columns', await value_of('textarea[data-file="program.asm"]'), 'a:      L7\n        J a');
    await tab.press('F9');
    same('F9 sets a breakpoint', await tab.value("document.querySelector('.gutter .has-break')?.dataset.line"), '2');
    await tab.press('Escape', 'Tab');
    same('Esc and Tab leave the editor', await tab.value("document.activeElement.tagName"), 'BUTTON');
    await tab.press('2');
    await tab.until("document.body.dataset.view === 'steps' && document.getElementById('step').value === '0' && document.querySelector('[data-register=PC]')?.textContent === '800'");
    await tab.press('ArrowRight');
    await tab.until("document.getElementById('step').value === '1' && document.querySelector('[data-register=PC]').textContent === '801'");
    await tab.press('?');
    await tab.until("document.querySelector('dialog[open] .sheet')");
    await tab.press('Escape');
    same('the sheet of keys closes', await tab.value("document.querySelector('dialog[open]') === null"), true);
    await tab.press('1');
  },

  async Stop() {
    await open_example('loop');
    await tab.click('textarea[data-file="program.asm"]');
    await tab.value("document.querySelector('textarea[data-file=\"program.asm\"]').select()");
    await tab.type('here:   J here\n');
    await tab.click('#side-machine');
    await set('[data-field="steps"]', '4000000000');
    await tab.click('#run');
    await tab.until("document.getElementById('run').disabled && !document.getElementById('stop').disabled");
    await tab.click('#stop');
    await tab.until("document.getElementById('ending').textContent.includes('Stopped')", 3);
    same('Run can be pressed again', await tab.value("document.getElementById('run').disabled"), false);
  },

  async 'functions and modules'() {
    const path = (name) => join(folder, name);
    writeFileSync(path('named.s'), NAMED);
    writeFileSync(path('plain.asm'), UNNAMED);
    writeFileSync(path('unset.asm'), UNSET);
    const made = written_by('session', 'shell', '-d', '3000', 'program', path('named.s'), 'program', path('plain.asm'), 'program', path('unset.asm'),
      'type', '100', 'RUN named', 'type', '1000', 'RUN plain', 'type', '2000', 'RUN unset');
    writeFileSync(path('session'), made);
    await go('programs');
    await tab.click('#new');
    await tab.until("document.querySelector('dialog[open]') || document.getElementById('title').value === 'Untitled'");
    if (await tab.value("document.querySelector('dialog[open]') !== null")) await tab.click('dialog[open] .choices button:last-child');
    await tab.click('#side-session');
    await set('#session', made);
    await run_page();
    await go('happened');
    await tab.until("document.querySelectorAll('svg.picture .spot').length > 20 && document.getElementById('happened-said').textContent !== ''");
    await same_picture('programs with names and without', written_by('bin/picture', path('session')));
    const log = written_by('bin/log', path('session'));
    const place = 'in (?:the function [^ ]+ of )?[^ ]+ at offset [0-9]+';
    for (const [, step, words] of log.matchAll(/^ *([0-9]+) +\S+ +\S+ +\S+ +(?:fault|die) +([^\n]*)/gm)) {
      await set('#cursor', step, 'change');
      await tab.until(`document.getElementById('cursor').value === '${step}' && document.getElementById('happened-said').textContent.startsWith('After ${step} ')`);
      same(`the place in the log of step ${step}`, await tab.value(`[...document.querySelectorAll('#log .is-now')].map((it) => /^(?:fault|die) .*?(${place})/.exec(it.lastChild.textContent)?.[1]).filter(Boolean).join()`),
        new RegExp(place).exec(words)[0]);
      const wanted = [...written_by('bin/state', path('session'), '--at', step).matchAll(/(?:PC is|it goes on at) [0-9]+, in [^;\n]*/g)].map(([all]) => all);
      const shown = await tab.value("[...document.querySelectorAll('#happened-state .sub')].flatMap((it) => /^(PC is|it goes on at) [0-9]+, in [^;]*/.exec(it.textContent)?.[0] ?? []).sort().join()");
      same(`the places in the state after step ${step}`, shown, wanted.sort().join());
    }
  },
};

try {
  await tab.open(page);
  await ready();
  await tab.until("/^✓/.test(document.getElementById('ending').textContent)");
  for (const [name, way] of Object.entries(ways)) {
    const begin = Date.now();
    try {
      await way();
    } catch (error) {
      failures.push(`${name}: ${error.message}`);
    }
    if (process.argv.includes('-v')) console.log(`${name}: ${Date.now() - begin} ms`);
  }
  const errors = tab.said.filter((it) => it.startsWith('error'));
  same('errors in the page', errors.join('\n'), '');
  same('addresses asked for', tab.asked.filter((it) => !/^(file|blob|data|about):/.test(it)).join(), '');
} finally {
  await tab.close();
  rmSync(folder, { recursive: true, force: true });
}
for (const failure of failures) console.log(failure);
console.log(`page: ${tries - failures.length} of ${tries} looks at its ${Object.keys(ways).length} ways are right`);
process.exitCode = failures.length === 0 ? 0 : 1;
