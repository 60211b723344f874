// A small client of the debugging pipe of Chromium.
import {spawn} from 'node:child_process';
import fs from 'node:fs';
import os from 'node:os';

const KEYS = {Enter: 13, ArrowLeft: 37, ArrowUp: 38, ArrowRight: 39, ArrowDown: 40, Escape: 27, Tab: 9};
export const sleep = time => new Promise(resolve => setTimeout(resolve, time));

// The messages of the pipe: each is JSON, and a zero byte ends it.
class Pipe {
  constructor(process) {
    this.output = process.stdio[3];
    this.waiting = new Map();
    this.listeners = [];
    this.count = 0;
    let text = '';
    process.stdio[4].setEncoding('utf8');
    process.stdio[4].on('data', data => {
      const parts = (text + data).split('\0');
      text = parts.pop();
      parts.forEach(part => this.take(JSON.parse(part)));
    });
  }

  take(message) {
    if (!message.id) return this.listeners.forEach(listen => listen(message));
    const [resolve, reject] = this.waiting.get(message.id);
    this.waiting.delete(message.id);
    message.error ? reject(new Error(JSON.stringify(message.error))) : resolve(message.result);
  }

  send(method, params = {}, sessionId = undefined) {
    return new Promise((resolve, reject) => {
      this.waiting.set(++this.count, [resolve, reject]);
      this.output.write(JSON.stringify({id: this.count, method, params, sessionId}) + '\0');
    });
  }
}

// A tab: errors of its scripts, and the addresses that it asked for.
class Tab {
  constructor(pipe, session) {
    this.pipe = pipe;
    this.session = session;
    this.errors = [];
    this.requests = [];
    pipe.listeners.push(message => message.sessionId === session && this.hear(message));
  }

  hear({method, params}) {
    if (method === 'Runtime.exceptionThrown') {
      const {exception, text} = params.exceptionDetails;
      this.errors.push(exception?.description ?? text);
    }
    if (method === 'Network.requestWillBeSent') this.requests.push(params.request.url);
    if (method === 'Page.domContentEventFired') this.ready?.();
    if (method === 'Page.loadEventFired') this.loaded?.();
  }

  call(method, params) {
    return this.pipe.send(method, params, this.session);
  }

  async open(url) {
    const loaded = new Promise(resolve => this.loaded = resolve);
    await this.call('Page.navigate', {url});
    await loaded;
    await sleep(350);
  }

  // The value of an expression on the page.
  async value(expression) {
    const {result, exceptionDetails: fault} =
      await this.call('Runtime.evaluate', {expression, awaitPromise: true, returnByValue: true});
    if (fault) throw new Error(fault.exception?.description ?? fault.text);
    return result.value;
  }

  async key(key) {
    const text = key === 'Enter' ? '\r' : undefined;
    const code = key.length === 1 ? {key, text: key} : {key, windowsVirtualKeyCode: KEYS[key], text};
    await this.call('Input.dispatchKeyEvent', {type: 'keyDown', ...code});
    await this.call('Input.dispatchKeyEvent', {type: 'keyUp', ...code});
    await sleep(80);
  }

  async picture(file) {
    const {data} = await this.call('Page.captureScreenshot', {});
    fs.writeFileSync(file, Buffer.from(data, 'base64'));
  }
}

// The text of a script that sets the clock of a page.
const clock = date => `{
  const Real = Date, shift = Date.parse(${JSON.stringify(date)}) - Real.now();
  window.Date = class extends Real {
    constructor(...words) { words.length ? super(...words) : super(Real.now() + shift); }
    static now() { return Real.now() + shift; }
  };
}`;

export class Browser {
  constructor() {
    this.folder = fs.mkdtempSync(`${os.tmpdir()}/page-`);
    const words = ['--headless=new', '--no-sandbox', '--disable-gpu', '--hide-scrollbars',
      `--user-data-dir=${this.folder}`, '--remote-debugging-pipe', 'about:blank'];
    this.process = spawn('chromium', words, {stdio: ['ignore', 'ignore', 'ignore', 'pipe', 'pipe']});
    this.pipe = new Pipe(this.process);
  }

  async tab({width = 1400, height = 900, scale = 1, dark = false, mobile = false, script = true, print = false, date}) {
    const {targetId} = await this.pipe.send('Target.createTarget', {url: 'about:blank'});
    const {sessionId} = await this.pipe.send('Target.attachToTarget', {targetId, flatten: true});
    const tab = new Tab(this.pipe, sessionId);
    for (const part of ['Page', 'Runtime', 'Network', 'Performance']) await tab.call(`${part}.enable`);
    await tab.call('Emulation.setDeviceMetricsOverride', {width, height, deviceScaleFactor: scale, mobile});
    const features = [{name: 'prefers-color-scheme', value: dark ? 'dark' : 'light'}];
    await tab.call('Emulation.setEmulatedMedia', {media: print ? 'print' : '', features});
    await tab.call('Emulation.setTimezoneOverride', {timezoneId: 'UTC'});
    if (!script) await tab.call('Emulation.setScriptExecutionDisabled', {value: true});
    if (date) await tab.call('Page.addScriptToEvaluateOnNewDocument', {source: clock(date)});
    return tab;
  }

  async close() {
    const ended = new Promise(resolve => this.process.on('exit', resolve));
    this.pipe.send('Browser.close').catch(() => {});
    await Promise.race([ended, sleep(5000)]);
    this.process.kill('SIGKILL');
    await Promise.race([ended, sleep(5000)]);
    try {
      fs.rmSync(this.folder, {recursive: true, force: true, maxRetries: 50, retryDelay: 200});
    } catch (error) {
      console.error(`${this.folder} stays: ${error.code}`);
    }
  }
}
