// Drives a headless Firefox by its Marionette protocol, for tests of the page. It needs node and Firefox, and no package.
import { spawn, spawnSync } from 'node:child_process';
import { mkdtempSync, rmSync, writeFileSync } from 'node:fs';
import { connect } from 'node:net';
import { tmpdir } from 'node:os';
import { join } from 'node:path';
import { pathToFileURL } from 'node:url';

const NAMES = ['firefox-esr', 'firefox'];
const PORT = 28280;

/** The command that starts Firefox here, or null if there is none. */
export function firefox() {
  return NAMES.find((name) => spawnSync(name, ['--version'], { stdio: 'ignore' }).status === 0) ?? null;
}

/** One window of a Firefox. `start` makes it. */
class Window {
  #process; #folder; #socket; #waiting = new Map(); #next = 1;

  constructor(process, folder, socket) {
    this.#process = process;
    this.#folder = folder;
    this.#socket = socket;
    let rest = Buffer.alloc(0);
    socket.on('data', (bytes) => {
      rest = Buffer.concat([rest, bytes]);
      // a message is the number of its bytes, a colon, and these bytes
      for (let colon; (colon = rest.indexOf(':')) > 0; ) {
        const end = colon + 1 + Number(rest.subarray(0, colon));
        if (rest.length < end) return;
        this.#heard(JSON.parse(rest.subarray(colon + 1, end)));
        rest = rest.subarray(end);
      }
    });
  }

  #heard(message) {
    if (!Array.isArray(message)) return; // the first one tells of the protocol
    const [, id, error, result] = message;
    const { resolve, reject } = this.#waiting.get(id);
    this.#waiting.delete(id);
    if (error) reject(new Error(error.message)); else resolve(result?.value ?? result);
  }

  /** Sends a command of the protocol, and gives its result. */
  send(command, params = {}) {
    const id = this.#next++;
    const text = JSON.stringify([0, id, command, params]);
    return new Promise((resolve, reject) => {
      this.#waiting.set(id, { resolve, reject });
      this.#socket.write(`${Buffer.byteLength(text)}:${text}`);
    });
  }

  /** Opens a file of the disk; gives when the page has loaded. */
  open(path, hash = '') {
    return this.send('WebDriver:Navigate', { url: pathToFileURL(path).href + (hash && `#${hash}`) });
  }

  /** The value of an expression of JavaScript in the page. */
  value(expression) {
    return this.send('WebDriver:ExecuteScript', { script: `return (${expression})`, args: [] });
  }

  /** Waits until an expression is true, and gives its value; after `seconds` it throws. */
  async until(expression, seconds = 10) {
    for (const end = Date.now() + seconds * 1000; ; ) {
      const value = await this.value(expression);
      if (value) return value;
      if (Date.now() > end) throw new Error(`not so after ${seconds} seconds: ${expression}`);
      await new Promise((resolve) => setTimeout(resolve, 50));
    }
  }

  /** Clicks the first element of a selector. */
  async click(selector) {
    const found = await this.send('WebDriver:FindElement', { using: 'css selector', value: selector });
    await this.send('WebDriver:ElementClick', { id: Object.values(found)[0] });
  }

  /** Writes what the window shows to a PNG file. */
  async picture(path) {
    writeFileSync(path, Buffer.from(await this.send('WebDriver:TakeScreenshot', { full: false }), 'base64'));
  }

  /** Ends this Firefox. */
  async close() {
    const ended = new Promise((resolve) => this.#process.on('exit', resolve));
    this.send('Marionette:Quit', { flags: ['eForceQuit'] }).catch(() => {});
    const late = setTimeout(() => this.#process.kill('SIGKILL'), 10000);
    await ended;
    clearTimeout(late);
    this.#socket.destroy();
    rmSync(this.#folder, { recursive: true, force: true, maxRetries: 5 });
  }
}

/** Starts a Firefox with one window of a size in pixels. Throws where there is none. */
export async function start({ width = 1366, height = 768 } = {}) {
  const command = firefox();
  if (!command) throw new Error('there is no Firefox here');
  const folder = mkdtempSync(join(tmpdir(), 'firefox-'));
  writeFileSync(join(folder, 'user.js'), `user_pref("marionette.port", ${PORT});\nuser_pref("datareporting.policy.dataSubmissionEnabled", false);\n`);
  const options = ['--headless', '--marionette', '--no-remote', '--profile', folder, `--width=${width}`, `--height=${height}`];
  const process = spawn(command, options, { stdio: 'ignore', env: { ...globalThis.process.env, HOME: folder } });
  for (let tries = 0; ; tries += 1) {
    const socket = await new Promise((resolve) => {
      const it = connect(PORT, '127.0.0.1', () => resolve(it)).on('error', () => resolve(null));
    });
    if (socket) {
      const window = new Window(process, folder, socket);
      await window.send('WebDriver:NewSession', { capabilities: {} });
      await window.send('WebDriver:SetWindowRect', { width, height });
      return window;
    }
    if (tries > 150) {
      process.kill('SIGKILL');
      throw new Error('Firefox did not start');
    }
    await new Promise((resolve) => setTimeout(resolve, 200));
  }
}
