// Chromium without a window, spoken to through two pipes: its DevTools protocol, a JSON object after the other, each ended by a byte 0.
import { spawn } from 'node:child_process';
import fs from 'node:fs';
import os from 'node:os';
import path from 'node:path';

export class Browser {
  constructor(program) {
    this.folder = fs.mkdtempSync(path.join(os.tmpdir(), 'codes-page-'));
    // (as root it starts only without its sandbox; it opens our own page alone)
    const words = ['--headless=new', '--remote-debugging-pipe', '--no-sandbox', '--no-first-run', '--no-default-browser-check', '--disable-background-networking', '--disable-extensions', '--disable-gpu',
      '--disable-dev-shm-usage', '--hide-scrollbars', `--user-data-dir=${this.folder}`, 'about:blank'];
    this.child = spawn(program, words, { stdio: ['ignore', 'ignore', 'ignore', 'pipe', 'pipe'], env: { ...process.env, HOME: this.folder } });
    Object.assign(this, { number: 0, waiting: new Map(), hears: new Map(), rest: '' });
    this.child.stdio[4].setEncoding('utf8').on('data', (text) => this.read(text));
    this.gone = new Promise((resolve) => this.child.on('exit', resolve));
    this.gone.then(() => this.waiting.forEach(({ reject }) => reject(new Error('Chromium ended'))));
  }

  read(text) {
    const parts = (this.rest + text).split('\0');
    this.rest = parts.pop();
    for (const part of parts) {
      const message = JSON.parse(part);
      const { resolve, reject } = this.waiting.get(message.id) ?? {};
      this.waiting.delete(message.id);
      if (message.error) reject?.(new Error(message.error.message));
      else if (message.id) resolve?.(message.result);
      else this.hears.get(message.sessionId)?.(message);
    }
  }

  send(method, params = {}, sessionId = undefined) {
    this.number += 1;
    const id = this.number;
    this.child.stdio[3].write(`${JSON.stringify({ id, method, params, sessionId })}\0`);
    return new Promise((resolve, reject) => this.waiting.set(id, { resolve, reject }));
  }

  async open(address, size) {
    const { targetId } = await this.send('Target.createTarget', { url: 'about:blank' });
    const { sessionId } = await this.send('Target.attachToTarget', { targetId, flatten: true });
    const page = new Page(this, sessionId, targetId);
    await page.begin(address, size);
    return page;
  }

  async close() {
    await this.send('Browser.close').catch(() => {});
    const timer = setTimeout(() => this.child.kill('SIGKILL'), 5000);
    await this.gone;
    clearTimeout(timer);
    fs.rmSync(this.folder, { recursive: true, force: true, maxRetries: 20, retryDelay: 200 });
  }
}

class Page {
  constructor(browser, session, target) {
    Object.assign(this, { browser, session, target, said: [] });
    browser.hears.set(session, ({ method, params }) => {
      if (method === 'Runtime.exceptionThrown') this.said.push(params.exceptionDetails.exception?.description ?? params.exceptionDetails.text);
      if (method === 'Runtime.consoleAPICalled') this.said.push(params.args.map((it) => it.value ?? it.description).join(' '));
      if (method === 'Log.entryAdded') this.said.push(params.entry.text);
      if (method === 'Network.requestWillBeSent' && !/^(file|data|blob|about):/.test(params.request.url)) this.said.push(`asks for ${params.request.url}`);
    });
  }

  send(method, params) {
    return this.browser.send(method, params, this.session);
  }

  async begin(address, { width, height, dark = false, mobile = false }) {
    for (const domain of ['Page', 'Runtime', 'Log', 'Network']) await this.send(`${domain}.enable`);
    await this.send('Emulation.setDeviceMetricsOverride', { width, height, deviceScaleFactor: 1, mobile });
    await this.send('Emulation.setEmulatedMedia', { features: [{ name: 'prefers-color-scheme', value: dark ? 'dark' : 'light' }] });
    await this.go(address);
  }

  async go(address) {
    await this.send('Page.navigate', { url: address });
    await this.until("document.documentElement.dataset.ready === 'yes'");
  }

  async reload() {
    await this.evaluate("document.documentElement.dataset.ready = 'no'");
    await this.send('Page.reload');
    await this.until("document.documentElement.dataset.ready === 'yes'");
  }

  async evaluate(expression) {
    const { result, exceptionDetails } = await this.send('Runtime.evaluate', { expression, returnByValue: true, awaitPromise: true, userGesture: true });
    if (exceptionDetails) throw new Error(exceptionDetails.exception?.description ?? exceptionDetails.text);
    return result.value;
  }

  // waits until an expression holds, for a minute at most
  async until(expression, seconds = 60) {
    const end = Date.now() + seconds * 1000;
    for (;;) {
      if (await this.evaluate(`Boolean(${expression})`).catch(() => false)) return;
      if (Date.now() > end) throw new Error(`this didn't come: ${expression}`);
      await new Promise((resolve) => setTimeout(resolve, 40));
    }
  }

  async press(key, code, modifiers = 0, text = undefined) {
    const codes = { Enter: 13, Tab: 9, Escape: 27, ArrowDown: 40, ' ': 32 };
    const event = { key, code, modifiers, windowsVirtualKeyCode: codes[key] ?? 0 };
    await this.send('Input.dispatchKeyEvent', { type: 'keyDown', ...event, text });
    await this.send('Input.dispatchKeyEvent', { type: 'keyUp', ...event });
  }

  type(text) {
    return this.send('Input.insertText', { text });
  }

  async picture(file, whole = false) {
    const { data } = await this.send('Page.captureScreenshot', { format: 'png', captureBeyondViewport: whole });
    fs.writeFileSync(file, Buffer.from(data, 'base64'));
  }

  close() {
    return this.browser.send('Target.closeTarget', { targetId: this.target });
  }
}
