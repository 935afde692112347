// A headless Chromium that is driven over a pipe: nothing listens on a network. The page is opened from a file, and
// what it logs and asks for is kept.
import { spawn } from 'node:child_process';
import { mkdtempSync, rmSync, writeFileSync } from 'node:fs';
import { tmpdir } from 'node:os';
import { join, resolve } from 'node:path';
import { pathToFileURL } from 'node:url';

const FLAGS = ['--headless=new', '--no-sandbox', '--disable-gpu', '--remote-debugging-pipe', '--no-first-run',
  '--disable-background-networking'];
const KEYS = { Enter: 13, Escape: 27, End: 35, Home: 36, ArrowDown: 40 };
export const sleep = time => new Promise(done => setTimeout(done, time));

export class Chromium {
  #browser;
  #home = mkdtempSync(join(tmpdir(), 'chromium-'));
  #last = 0;
  #kept = '';
  #waiting = new Map();
  #session;
  events = [];

  constructor({ width, height }) {
    const flags = [...FLAGS, `--user-data-dir=${this.#home}`, `--window-size=${width},${height}`];
    const stdio = ['ignore', 'ignore', 'ignore', 'pipe', 'pipe'];
    this.#browser = spawn('chromium', [...flags, 'about:blank'], { stdio });
    this.#browser.stdio[4].setEncoding('utf8').on('data', text => this.#hear(text));
  }

  #hear(text) {
    const parts = (this.#kept + text).split('\0');
    this.#kept = parts.pop();
    for (const message of parts.map(part => JSON.parse(part))) {
      if (this.#waiting.has(message.id)) this.#waiting.get(message.id)(message);
      else this.events.push(message);
    }
  }

  call(method, params = {}, sessionId = this.#session) {
    return new Promise((done, fail) => {
      const id = ++this.#last;
      const hear = ({ error, result }) => error ? fail(new Error(`${method}: ${error.message}`)) : done(result);
      this.#waiting.set(id, hear);
      this.#browser.stdio[3].write(`${JSON.stringify({ id, method, params, sessionId })}\0`);
    });
  }

  // Opens a page whose downloads go into a folder.
  async open(page, downloads) {
    const { targetId } = await this.call('Target.createTarget', { url: 'about:blank' });
    this.#session = (await this.call('Target.attachToTarget', { targetId, flatten: true })).sessionId;
    for (const domain of ['Page', 'Runtime', 'DOM', 'Log', 'Network']) await this.call(`${domain}.enable`);
    await this.call('Browser.setDownloadBehavior', { behavior: 'allow', downloadPath: resolve(downloads) }, undefined);
    await this.call('Page.navigate', { url: pathToFileURL(resolve(page)).href });
    await this.until(`document.readyState === 'complete'`);
  }

  async evaluate(expression) {
    const given = { expression, awaitPromise: true, returnByValue: true };
    const { result, exceptionDetails } = await this.call('Runtime.evaluate', given);
    if (exceptionDetails) throw new Error(exceptionDetails.exception?.description ?? exceptionDetails.text);
    return result.value;
  }

  // Waits until an expression is true. Returns how long it took, in milliseconds.
  async until(expression, patience = 60000) {
    const begun = performance.now();
    while (!await this.evaluate(`Boolean(${expression})`)) {
      if (performance.now() - begun > patience) throw new Error(`this did not come: ${expression}`);
      await sleep(10);
    }
    return performance.now() - begun;
  }

  // Drops files on an element, as a hand does.
  async drop(selector, ...files) {
    const place = await this.evaluate(`(box => ({ x: box.x + box.width / 2, y: box.y + box.height / 2 }))
      (document.querySelector(${JSON.stringify(selector)}).getBoundingClientRect())`);
    const data = { items: [], files: files.map(file => resolve(file)), dragOperationsMask: 1 };
    for (const type of ['dragEnter', 'dragOver', 'drop'])
      await this.call('Input.dispatchDragEvent', { type, ...place, data });
  }

  async press(key, code = key, text = undefined) {
    const params = { key, code, text, windowsVirtualKeyCode: KEYS[key] };
    await this.call('Input.dispatchKeyEvent', { type: text ? 'keyDown' : 'rawKeyDown', ...params });
    await this.call('Input.dispatchKeyEvent', { type: 'keyUp', ...params });
  }

  async type(text) {
    await this.call('Input.insertText', { text });
  }

  async picture(path, { width, height, dark = false }) {
    const features = [{ name: 'prefers-color-scheme', value: dark ? 'dark' : 'light' }];
    await this.call('Emulation.setEmulatedMedia', { features });
    await this.call('Emulation.setDeviceMetricsOverride', { width, height, deviceScaleFactor: 1, mobile: false });
    await sleep(400);
    const { data } = await this.call('Page.captureScreenshot', { format: 'png' });
    writeFileSync(path, Buffer.from(data, 'base64'));
  }

  async end() {
    await this.call('Browser.close', {}, undefined).catch(() => {});
    await new Promise(done => this.#browser.exitCode === null ? this.#browser.on('exit', done) : done());
    rmSync(this.#home, { recursive: true, force: true, maxRetries: 5, retryDelay: 200 });
  }
}
