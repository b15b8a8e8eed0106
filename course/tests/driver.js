// A small client of the WebDriver protocol: one headless Chromium, driven through chromedriver over the loopback.
// No packages. Whatever happens, chromedriver and Chromium end with the process that started them.

import { spawn } from 'node:child_process';
import { mkdtempSync, rmSync, writeFileSync } from 'node:fs';
import { tmpdir } from 'node:os';
import { join } from 'node:path';

/** The name under which the protocol passes an element. */
const ELEMENT = 'element-6066-11e4-a52e-4f735466cecf';

/** Keys that have no character, by the protocol's code points. */
export const Key = Object.freeze({
  Tab: '\uE004',
  Enter: '\uE007',
  Shift: '\uE008',
  Control: '\uE009',
  Space: ' ',
  End: '\uE010',
  Home: '\uE011',
  Left: '\uE012',
  Up: '\uE013',
  Right: '\uE014',
  Down: '\uE015',
  Delete: '\uE017',
});

/** How long chromedriver may take to start, and how long a test waits for what the page is to show. */
const START_MS = 30_000;
const WAIT_MS = 15_000;

/** Starts chromedriver on a free port, with a folder for what it keeps. Answers the process and its address. */
function startDriver(folder) {
  const program = process.env.CHROMEDRIVER ?? 'chromedriver';
  const env = { ...process.env, TMPDIR: folder };
  const driver = spawn(program, ['--port=0'], { stdio: ['ignore', 'pipe', 'inherit'], env });
  return new Promise((resolve, reject) => {
    const late = setTimeout(() => {
      driver.kill('SIGKILL');
      reject(new Error(`${program} did not start`));
    }, START_MS);
    const ended = (reason) => {
      clearTimeout(late);
      reject(new Error(`${program}: ${reason}`));
    };
    driver.once('error', (error) => ended(error.message));
    driver.once('exit', (status) => ended(`ended with status ${status}`));
    let said = '';
    driver.stdout.on('data', (piece) => {
      said += piece;
      const port = /started successfully on port (\d+)/.exec(said);
      if (!port) return;
      clearTimeout(late);
      resolve({ driver, address: `http://127.0.0.1:${port[1]}` });
    });
  });
}

/** What a new session asks of Chromium. */
function capabilities(folder) {
  const args = [
    '--headless=new', `--user-data-dir=${join(folder, 'profile')}`, '--window-size=1200,900', '--no-first-run',
    '--disable-background-networking', '--disable-component-update', '--disable-dev-shm-usage', '--hide-scrollbars',
    '--force-color-profile=srgb',
  ];
  if (process.getuid?.() === 0) args.push('--no-sandbox');
  const options = { args, perfLoggingPrefs: { enableNetwork: true, enablePage: false } };
  if (process.env.CHROMIUM) options.binary = process.env.CHROMIUM;
  return {
    browserName: 'chrome',
    'goog:chromeOptions': options,
    'goog:loggingPrefs': { browser: 'ALL', performance: 'ALL' },
    timeouts: { script: 120_000, pageLoad: 60_000 },
  };
}

/** Ends a process that may have ended already. */
function end(id) {
  try {
    process.kill(id, 'SIGKILL');
  } catch (error) {
    if (error.code !== 'ESRCH') throw error;
  }
}

export class Browser {
  #address;
  #driver;
  #folder = mkdtempSync(join(tmpdir(), 'course-browser-'));
  #chromium = null;
  #endNow = () => this.#end();
  #interrupted = () => process.exit(1);

  /** Starts chromedriver and a headless Chromium with the network off. */
  static async start() {
    const browser = new Browser();
    process.once('exit', browser.#endNow);
    for (const signal of ['SIGINT', 'SIGTERM']) process.once(signal, browser.#interrupted);
    try {
      await browser.#begin();
    } catch (error) {
      await browser.close();
      throw error;
    }
    return browser;
  }

  async #begin() {
    const { driver, address } = await startDriver(this.#folder);
    this.#driver = driver;
    this.#address = address;
    const wanted = { capabilities: { alwaysMatch: capabilities(this.#folder) } };
    const session = await this.#send('POST', '/session', wanted);
    this.#chromium = session.capabilities['goog:processID'] ?? null;
    this.#address += `/session/${session.sessionId}`;
    await this.offline();
    // what Chromium shows and asks for by itself is no part of a test
    await this.open('about:blank');
    await this.requests();
    await this.messages();
  }

  /** Closes the session, then ends both programs. */
  async close() {
    if (this.#chromium) await this.#send('DELETE', '').catch(() => {});
    this.#end();
    process.removeListener('exit', this.#endNow);
    for (const signal of ['SIGINT', 'SIGTERM']) process.removeListener(signal, this.#interrupted);
  }

  #end() {
    for (const id of [this.#driver?.pid, this.#chromium]) if (id) end(id);
    this.#driver = this.#chromium = null;
    // Chromium's other processes follow it within a moment, and write to the folder until then
    Atomics.wait(new Int32Array(new SharedArrayBuffer(4)), 0, 0, 300);
    rmSync(this.#folder, { recursive: true, force: true, maxRetries: 5, retryDelay: 100 });
  }

  /** One request of the protocol, and the value of its answer. */
  async #send(method, path, body) {
    const options = { method };
    if (method === 'POST') options.body = JSON.stringify(body ?? {});
    const reply = await fetch(this.#address + path, options);
    const { value } = await reply.json();
    if (reply.ok) return value;
    throw new Error(`${method} ${path}: ${value.error}: ${value.message.split('\n')[0]}`);
  }

  /** A command of Chromium's own protocol. */
  cdp(cmd, params = {}) {
    return this.#send('POST', '/goog/cdp/execute', { cmd, params });
  }

  /** Runs a function inside the page. Arguments and answer are plain values; a promise is waited for. */
  script(body, ...args) {
    const code = `const done = arguments[arguments.length - 1];
      const given = Array.from(arguments).slice(0, -1);
      (async () => (${body})(...given))()
        .then((value) => done({ value: value ?? null }), (error) => done({ error: String(error?.stack ?? error) }));`;
    return this.#send('POST', '/execute/async', { script: code, args }).then((answer) => {
      if (answer.error) throw new Error(`in the page: ${answer.error}`);
      return answer.value;
    });
  }

  /** Has Chromium run this text in every new document, before the page's own scripts. Answers its identifier. */
  async beforeEachPage(source) {
    return (await this.cdp('Page.addScriptToEvaluateOnNewDocument', { source })).identifier;
  }

  open(url) {
    return this.#send('POST', '/url', { url });
  }

  async find(css) {
    return (await this.#send('POST', '/element', { using: 'css selector', value: css }))[ELEMENT];
  }

  async click(css) {
    return this.#send('POST', `/element/${await this.find(css)}/click`);
  }

  /** The text of an element as a reader sees it. */
  async text(css) {
    return this.#send('GET', `/element/${await this.find(css)}/text`);
  }

  /** What a screen reader finds: roles and names, in the order of the page. */
  async spoken() {
    const { nodes } = await this.cdp('Accessibility.getFullAXTree');
    const heard = nodes.filter((node) => !node.ignored);
    return heard.map(({ role, name }) => ({ role: role.value, name: (name?.value ?? '').trim() }));
  }

  /** Chooses a file in a file input, by its path. */
  async chooseFile(css, path) {
    return this.#send('POST', `/element/${await this.find(css)}/value`, { text: path });
  }

  /** Presses keys one after the other, wherever the focus is. */
  async keys(...pressed) {
    const strokes = pressed.flatMap((value) => [{ type: 'keyDown', value }, { type: 'keyUp', value }]);
    await this.#send('POST', '/actions', { actions: [{ type: 'key', id: 'keyboard', actions: strokes }] });
  }

  /** Presses a key while another is held. */
  async chord(held, pressed) {
    const strokes = [['keyDown', held], ['keyDown', pressed], ['keyUp', pressed], ['keyUp', held]];
    const actions = strokes.map(([type, value]) => ({ type, value }));
    await this.#send('POST', '/actions', { actions: [{ type: 'key', id: 'keyboard', actions }] });
  }

  /** Replaces the text of a field, as a person who selects all and types or pastes. */
  async fill(css, text) {
    await this.script((where) => {
      const field = document.querySelector(where);
      field.focus();
      field.select();
    }, css);
    if (text === '') await this.keys(Key.Delete);
    else await this.cdp('Input.insertText', { text });
  }

  /** Drops files on an element. */
  async drop(css, ...files) {
    const { x, y } = await this.script((where) => {
      const element = document.querySelector(where);
      element.scrollIntoView({ block: 'center' });
      const box = element.getBoundingClientRect();
      return { x: box.x + box.width / 2, y: box.y + box.height / 2 };
    }, css);
    const data = { items: [], files, dragOperationsMask: 1 };
    for (const type of ['dragEnter', 'dragOver', 'drop']) {
      await this.cdp('Input.dispatchDragEvent', { type, x, y, data });
    }
  }

  /** Waits until a function answers something true inside the page, and hands that over. */
  async until(what, body, ...args) {
    for (const deadline = Date.now() + WAIT_MS; ; ) {
      const value = await this.script(body, ...args);
      if (value) return value;
      if (Date.now() > deadline) throw new Error(`waited in vain: ${what}`);
      await new Promise((resolve) => setTimeout(resolve, 50));
    }
  }

  /** The page seen in a window of so many pixels, when it is drawn anew. */
  async size(width, height = 900) {
    const window = { width, height, deviceScaleFactor: 1, mobile: false };
    await this.cdp('Emulation.setDeviceMetricsOverride', window);
    await this.script(() => new Promise((drawn) => requestAnimationFrame(() => requestAnimationFrame(() => drawn()))));
  }

  /** The page seen with a colour scheme, light or dark, on screen or on paper (`print`). */
  look(scheme, media = '') {
    const features = [
      { name: 'prefers-color-scheme', value: scheme },
      { name: 'prefers-reduced-motion', value: 'reduce' },
    ];
    return this.cdp('Emulation.setEmulatedMedia', { media, features });
  }

  /** Cuts the network off. */
  async offline() {
    await this.cdp('Network.enable');
    const none = { offline: true, latency: 0, downloadThroughput: 0, uploadThroughput: 0 };
    await this.cdp('Network.emulateNetworkConditions', none);
  }

  /** A picture of an element with so much around it, made so wide. */
  async picture(path, css, { margin = 0, width = null } = {}) {
    const clip = await this.script((where, around) => {
      const box = document.querySelector(where).getBoundingClientRect();
      const [left, right] = [Math.max(0, box.left - around), Math.min(innerWidth, box.right + around)];
      const top = Math.max(0, box.top + scrollY - around);
      return { x: left, y: top, width: right - left, height: box.bottom + scrollY + around - top };
    }, css, margin);
    const scale = width ? width / clip.width : 1;
    const shot = { format: 'png', captureBeyondViewport: true, clip: { ...clip, scale } };
    writeFileSync(path, Buffer.from((await this.cdp('Page.captureScreenshot', shot)).data, 'base64'));
  }

  /** What the console has said since the last call. */
  async messages() {
    const entries = await this.#send('POST', '/se/log', { type: 'browser' });
    return entries.map(({ level, message }) => `${level}: ${message}`);
  }

  /** The addresses that were asked for since the last call. */
  async requests() {
    const entries = await this.#send('POST', '/se/log', { type: 'performance' });
    const events = entries.map((entry) => JSON.parse(entry.message).message);
    const asked = events.filter((event) => event.method === 'Network.requestWillBeSent');
    return asked.map((event) => event.params.request.url);
  }
}
