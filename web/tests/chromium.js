// Drives a headless Chromium by the DevTools protocol, for tests of the page. It needs node and Chromium, and no package.
import { spawn, spawnSync } from 'node:child_process';
import { mkdtempSync, rmSync, writeFileSync } from 'node:fs';
import { tmpdir } from 'node:os';
import { join } from 'node:path';
import { pathToFileURL } from 'node:url';

const NAMES = ['chromium', 'chromium-browser', 'google-chrome', 'google-chrome-stable'];

/** The command that starts Chromium here, or null if there is none. */
export function chromium() {
  return NAMES.find((name) => spawnSync(name, ['--version'], { stdio: 'ignore' }).status === 0) ?? null;
}

// what the protocol wants of keys that write no character: the key, its code and its number
const KEYS = {
  Enter: ['Enter', 13, '\r'], Tab: ['Tab', 9], Escape: ['Escape', 27], Backspace: ['Backspace', 8], Delete: ['Delete', 46], ' ': ['Space', 32, ' '],
  ArrowLeft: ['ArrowLeft', 37], ArrowUp: ['ArrowUp', 38], ArrowRight: ['ArrowRight', 39], ArrowDown: ['ArrowDown', 40],
  Home: ['Home', 36], End: ['End', 35], PageUp: ['PageUp', 33], PageDown: ['PageDown', 34],
  F1: ['F1', 112], F2: ['F2', 113], F3: ['F3', 114], F4: ['F4', 115], F5: ['F5', 116], F6: ['F6', 117], F7: ['F7', 118], F8: ['F8', 119],
  F9: ['F9', 120], F10: ['F10', 121], F11: ['F11', 122], F12: ['F12', 123],
};
const MODIFIERS = { Alt: 1, Control: 2, Meta: 4, Shift: 8 };

/** One tab of a Chromium. `open` makes it. */
export class Tab {
  #process; #folder; #input; #waiting = new Map(); #next = 1; #session; #ended;
  /** What the page has written to its console and which errors it has thrown, a text each, in order. */
  said = [];
  /** The addresses that the page has asked for, in order. */
  asked = [];

  constructor(process, folder) {
    this.#process = process;
    this.#folder = folder;
    this.#input = process.stdio[3];
    let rest = '';
    process.stdio[4].setEncoding('utf8').on('data', (text) => {
      const parts = (rest + text).split('\0');
      rest = parts.pop();
      for (const part of parts) this.#heard(JSON.parse(part));
    });
    this.#ended = new Promise((resolve) => process.on('exit', resolve));
    this.#ended.then(() => { for (const { reject } of this.#waiting.values()) reject(new Error('Chromium has ended')); });
  }

  #heard(message) {
    if (message.id) {
      const { resolve, reject } = this.#waiting.get(message.id);
      this.#waiting.delete(message.id);
      if (message.error) reject(new Error(message.error.message)); else resolve(message.result);
    } else if (message.method === 'Runtime.consoleAPICalled') {
      this.said.push(`${message.params.type}: ${message.params.args.map((it) => it.value ?? it.description).join(' ')}`);
    } else if (message.method === 'Runtime.exceptionThrown') {
      const { exceptionDetails: it } = message.params;
      this.said.push(`error: ${it.exception?.description ?? it.text} (line ${it.lineNumber + 1})`);
    } else if (message.method === 'Network.requestWillBeSent') {
      this.asked.push(message.params.request.url);
    }
  }

  /** Sends a method of the protocol, and gives its result. */
  send(method, params = {}) {
    const id = this.#next++;
    const message = { id, method, params, ...(this.#session && { sessionId: this.#session }) };
    return new Promise((resolve, reject) => {
      this.#waiting.set(id, { resolve, reject });
      this.#input.write(`${JSON.stringify(message)}\0`);
    });
  }

  async start(width, height) {
    const { targetId } = await this.send('Target.createTarget', { url: 'about:blank' });
    ({ sessionId: this.#session } = await this.send('Target.attachToTarget', { targetId, flatten: true }));
    await Promise.all(['Page', 'Runtime', 'Network'].map((domain) => this.send(`${domain}.enable`)));
    await this.size(width, height);
  }

  /** Sets the size of the window, in pixels of the page. */
  size(width, height) {
    return this.send('Emulation.setDeviceMetricsOverride', { width, height, deviceScaleFactor: 1, mobile: false });
  }

  /** Opens a file of the disk; `hash` is what comes after # in its address. Gives when the page has loaded. */
  async open(path, hash = '') {
    const url = pathToFileURL(path).href + (hash && `#${hash}`);
    // a page that differs only after # would not load again
    await this.send('Page.navigate', { url: 'about:blank' });
    await this.until("document.readyState === 'complete' && location.href === 'about:blank'");
    const { errorText } = await this.send('Page.navigate', { url });
    if (errorText) throw new Error(`${url}: ${errorText}`);
    await this.until("document.readyState === 'complete' && location.href !== 'about:blank'");
  }

  /** The value of an expression of JavaScript in the page; a Promise is waited for. */
  async value(expression) {
    const { result, exceptionDetails } = await this.send('Runtime.evaluate', { expression, awaitPromise: true, returnByValue: true, userGesture: true });
    if (exceptionDetails) throw new Error(exceptionDetails.exception?.description ?? exceptionDetails.text);
    return result.value;
  }

  /** Waits until an expression is true, and gives its value; after `seconds` it throws. */
  async until(expression, seconds = 10) {
    for (const end = Date.now() + seconds * 1000; ;) {
      const value = await this.value(expression).catch((error) => { if (Date.now() > end) throw error; });
      if (value) return value;
      if (Date.now() > end) throw new Error(`not so after ${seconds} seconds: ${expression}`);
      await new Promise((resolve) => setTimeout(resolve, 20));
    }
  }

  /**
   * Clicks into the middle of the first element of a selector, after it was scrolled into sight and has kept its place for two frames. Throws where
   * there is none that can be seen.
   */
  async click(selector, { count = 1 } = {}) {
    const [x, y] = await this.until(`(async () => {
      const place = () => {
        const it = document.querySelector(${JSON.stringify(selector)});
        it?.scrollIntoView({ block: 'nearest', inline: 'nearest', behavior: 'instant' });
        const box = it?.getBoundingClientRect();
        return box?.width && box.height ? [box.x + box.width / 2, box.y + box.height / 2] : null;
      };
      const first = place();
      await new Promise((resolve) => requestAnimationFrame(() => requestAnimationFrame(resolve)));
      const second = place();
      return first && second && first.join() === second.join() ? second : null;
    })()`, 5);
    await this.mouse('mouseMoved', x, y);
    for (let clickCount = 1; clickCount <= count; clickCount++) {
      await this.mouse('mousePressed', x, y, { button: 'left', clickCount });
      await this.mouse('mouseReleased', x, y, { button: 'left', clickCount });
    }
  }

  /** An event of the mouse: mousePressed, mouseReleased or mouseMoved, at a place in the window. */
  mouse(type, x, y, more = {}) {
    return this.send('Input.dispatchMouseEvent', { type, x, y, ...more });
  }

  /** Types a text as a person would paste it, at the place of the focus. */
  type(text) {
    return this.send('Input.insertText', { text });
  }

  /** Presses keys, such as `Enter`, `a`, `F10` or `Control+Enter`, one after the other. */
  async press(...keys) {
    for (const press of keys) {
      const parts = press === '+' ? ['+'] : press.split(/\+(?=.)/);
      const key = parts.pop();
      const modifiers = parts.reduce((sum, it) => sum + MODIFIERS[it], 0);
      const [code, number, plain] = KEYS[key] ?? [/[a-z]/i.test(key) ? `Key${key.toUpperCase()}` : '', key.toUpperCase().charCodeAt(0), key];
      const text = modifiers & ~MODIFIERS.Shift ? undefined : plain;
      const event = { key, code, modifiers, windowsVirtualKeyCode: number };
      await this.send('Input.dispatchKeyEvent', { type: text ? 'keyDown' : 'rawKeyDown', text, ...event });
      await this.send('Input.dispatchKeyEvent', { type: 'keyUp', ...event });
    }
  }

  /** Puts files of the disk into an <input type=file>. */
  async files(selector, ...paths) {
    const { result } = await this.send('Runtime.evaluate', { expression: `document.querySelector(${JSON.stringify(selector)})` });
    await this.send('DOM.setFileInputFiles', { files: paths, objectId: result.objectId });
  }

  /** Where what the page gives to save is put: a folder. */
  downloads(folder) {
    return this.send('Browser.setDownloadBehavior', { behavior: 'allow', downloadPath: folder });
  }

  /** Shows the page dark or light, on paper or on the screen, still or moving: `{scheme: 'dark', media: 'print', motion: 'reduce'}`. */
  show({ scheme = 'light', media = 'screen', motion = 'no-preference' } = {}) {
    const features = [{ name: 'prefers-color-scheme', value: scheme }, { name: 'prefers-reduced-motion', value: motion }];
    return this.send('Emulation.setEmulatedMedia', { media, features });
  }

  /** Writes what the window shows, or with `whole` all of the page, to a PNG file. */
  async picture(path, { whole = false } = {}) {
    const { data } = await this.send('Page.captureScreenshot', { format: 'png', captureBeyondViewport: whole });
    writeFileSync(path, Buffer.from(data, 'base64'));
  }

  /** Writes the page to a PDF file, as it is printed. */
  async print(path) {
    const { data } = await this.send('Page.printToPDF', { preferCSSPageSize: true, printBackground: true });
    writeFileSync(path, Buffer.from(data, 'base64'));
  }

  /** Ends this Chromium. */
  async close() {
    this.#session = undefined;
    this.send('Browser.close').catch(() => {});
    const late = setTimeout(() => this.#process.kill('SIGKILL'), 5000);
    await this.#ended;
    clearTimeout(late);
    rmSync(this.#folder, { recursive: true, force: true, maxRetries: 5 });
  }
}

/** Starts a Chromium with one empty tab of a size in pixels. Throws where there is none. */
export async function start({ width = 1366, height = 768 } = {}) {
  const command = chromium();
  if (!command) throw new Error('there is no Chromium here');
  const folder = mkdtempSync(join(tmpdir(), 'chromium-'));
  const options = [
    '--headless=new', '--remote-debugging-pipe', '--no-sandbox', '--disable-gpu', '--no-first-run', '--disable-background-networking',
    '--disable-component-update', '--disable-dev-shm-usage', '--force-color-profile=srgb', `--user-data-dir=${folder}`,
  ];
  const tab = new Tab(spawn(command, options, { stdio: ['ignore', 'ignore', 'ignore', 'pipe', 'pipe'] }), folder);
  await tab.start(width, height);
  return tab;
}
