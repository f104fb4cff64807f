// Chromium without a window, over the pipe of its debugging protocol.
import { spawn } from "node:child_process";
import { mkdtempSync, rmSync } from "node:fs";
import { tmpdir } from "node:os";
import { join } from "node:path";

// An answer that does not come within this time is a failure.
const PATIENCE = 60000;

export class Browser {
  constructor() {
    this.folder = mkdtempSync(join(tmpdir(), "browser-"));
    const flags = ["--headless", "--no-sandbox", "--disable-gpu", "--disable-dev-shm-usage", "--hide-scrollbars", "--remote-debugging-pipe", "--user-data-dir=" + this.folder, "about:blank"];
    this.child = spawn("chromium", flags, { stdio: ["ignore", "ignore", "pipe", "pipe", "pipe"] });
    this.said = "";
    this.child.stderr.setEncoding("utf8").on("data", (part) => { this.said = (this.said + part).slice(-2000); });
    this.ended = new Promise((done) => this.child.on("exit", (status) => done(status)));
    process.on("exit", () => this.child.kill("SIGKILL"));
    this.waiting = new Map();
    this.listeners = [];
    this.number = 0;
    let text = "";
    this.child.stdio[4].setEncoding("utf8").on("data", (part) => {
      text += part;
      const whole = text.split("\0");
      text = whole.pop();
      whole.forEach((message) => this.heard(JSON.parse(message)));
    });
  }

  heard(message) {
    const waits = this.waiting.get(message.id);
    if (!waits) return this.listeners.forEach((listen) => listen(message));
    this.waiting.delete(message.id);
    if (message.error) waits.fail(new Error(message.error.message));
    else waits.done(message.result);
  }

  send(method, params = {}, sessionId) {
    const id = ++this.number;
    this.child.stdio[3].write(JSON.stringify({ id, method, params, sessionId }) + "\0");
    return within(method, new Promise((done, fail) => this.waiting.set(id, { done, fail })), this);
  }

  async page() {
    const { targetId } = await this.send("Target.createTarget", { url: "about:blank" });
    const { sessionId } = await this.send("Target.attachToTarget", { targetId, flatten: true });
    const page = new Page(this, sessionId);
    for (const domain of ["Page", "Runtime", "Log", "Network"]) await page.send(domain + ".enable");
    return page;
  }

  async close() {
    this.child.kill();
    await this.ended;
    rmSync(this.folder, { recursive: true, force: true });
  }
}

// What is awaited, or a failure that says what chromium said last.
function within(what, awaited, browser) {
  let timer;
  const late = new Promise((_, fail) => {
    timer = setTimeout(() => fail(new Error(`no answer to ${what}; chromium said: ${browser.said}`)), PATIENCE);
  });
  return Promise.race([awaited, late]).finally(() => clearTimeout(timer));
}

class Page {
  constructor(browser, session) {
    this.browser = browser;
    this.session = session;
    this.errors = [];
    this.asked = [];
    browser.listeners.push((message) => {
      if (message.sessionId === session) this.heard(message);
    });
  }

  heard({ method, params }) {
    if (method === "Runtime.exceptionThrown") this.errors.push(params.exceptionDetails.exception?.description || params.exceptionDetails.text);
    if (method === "Runtime.consoleAPICalled") this.errors.push(`console.${params.type}`);
    if (method === "Log.entryAdded") this.errors.push(params.entry.text);
    if (method === "Network.requestWillBeSent") this.asked.push(params.request.url);
    if (method === "Page.loadEventFired" && this.loaded) this.loaded();
  }

  send(method, params) {
    return this.browser.send(method, params, this.session);
  }

  async open(url, { width, height, dark }) {
    await this.send("Emulation.setDeviceMetricsOverride", { width, height, deviceScaleFactor: 1, mobile: false });
    await this.send("Emulation.setEmulatedMedia", { features: [{ name: "prefers-color-scheme", value: dark ? "dark" : "light" }] });
    const loaded = new Promise((done) => { this.loaded = done; });
    // A query of its own has the page loaded anew.
    const [file, hash] = url.split("#");
    await this.send("Page.navigate", { url: `${file}?${++this.browser.number}#${hash || ""}` });
    await within("loading " + file, loaded, this.browser);
  }

  async value(expression) {
    const { result, exceptionDetails } = await this.send("Runtime.evaluate", { expression, returnByValue: true });
    if (exceptionDetails) throw new Error(exceptionDetails.exception?.description || exceptionDetails.text);
    return result.value;
  }

  async key(key) {
    for (const type of ["keyDown", "keyUp"]) await this.send("Input.dispatchKeyEvent", { type, key, code: key });
  }

  async picture() {
    const { data } = await this.send("Page.captureScreenshot", { format: "png" });
    return Buffer.from(data, "base64");
  }
}
