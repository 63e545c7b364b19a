// A client of chromedriver for the tests of the page: one headless Chromium, driven by the WebDriver protocol.
import { spawn } from 'node:child_process';
import { accessSync, constants, mkdirSync, mkdtempSync, rmSync, writeFileSync } from 'node:fs';
import { tmpdir } from 'node:os';
import { delimiter, join, resolve } from 'node:path';

const ELEMENT = 'element-6066-11e4-a52e-4f735466cecf';
const START_MILLISECONDS = 60000;
const WAIT_MILLISECONDS = 30000;
const CODES = {
  Enter: '\ue007', Tab: '\ue004', Escape: '\ue00c', Backspace: '\ue003', Delete: '\ue017', Space: ' ',
  Shift: '\ue008', Control: '\ue009', Alt: '\ue00a', Meta: '\ue03d',
  ArrowLeft: '\ue012', ArrowUp: '\ue013', ArrowRight: '\ue014', ArrowDown: '\ue015',
  Home: '\ue011', End: '\ue010', PageUp: '\ue00e', PageDown: '\ue00f', F1: '\ue031', F2: '\ue032',
};

// The driver in a group of its own, which ends with the driver, and where the input ends: a test's process that is killed cannot say so.
const WATCH = '("$0" --port=0; kill -KILL 0) & read -r line; kill -KILL 0';

// The path of a command, or null where no folder of PATH has it.
function pathOf(command) {
  for (const folder of (process.env.PATH ?? '').split(delimiter)) {
    try {
      accessSync(join(folder, command), constants.X_OK);
      return join(folder, command);
    } catch {
      continue;
    }
  }
  return null;
}

// Starts chromedriver on a port that it picks, and gives the port and how to end it. The folder is the driver's and the browser's own.
async function startDriver(folder) {
  const command = pathOf('chromedriver');
  if (!command) throw new Error('there is no chromedriver in PATH: planner/setup installs it');
  const driver = spawn('sh', ['-c', WATCH, command], {
    stdio: ['pipe', 'pipe', 'ignore'],
    detached: true,
    env: { ...process.env, HOME: folder, TMPDIR: folder },
  });
  // Ends the driver with all that it started, also when the test's process ends first.
  const end = () => {
    process.off('exit', end);
    for (const signal of ['SIGINT', 'SIGTERM']) process.off(signal, interrupted);
    try {
      process.kill(-driver.pid, 'SIGKILL');
    } catch {
      driver.kill('SIGKILL');
    }
    rmSync(folder, { recursive: true, force: true, maxRetries: 5, retryDelay: 100 });
  };
  const interrupted = () => {
    end();
    process.exit(2);
  };
  process.on('exit', end);
  for (const signal of ['SIGINT', 'SIGTERM']) process.on(signal, interrupted);
  try {
    return { port: await portOf(driver), end };
  } catch (error) {
    end();
    throw error;
  } finally {
    // A test that never closes its browser must not keep its process alive: the end of the process ends the driver.
    driver.stdin.unref();
    driver.stdout.unref();
    driver.unref();
  }
}

// The port that chromedriver says it listens on.
function portOf(driver) {
  return new Promise((found, failed) => {
    let said = '';
    const late = setTimeout(() => failed(new Error(`chromedriver named no port: ${said}`)), START_MILLISECONDS);
    const stop = (error) => {
      clearTimeout(late);
      failed(error);
    };
    driver.on('error', (error) => stop(new Error(`chromedriver could not be started: ${error.message}`)));
    driver.on('exit', (status) => stop(new Error(`chromedriver ended with status ${status}: ${said}`)));
    driver.stdout.on('data', (bytes) => {
      said += bytes;
      const port = /started successfully on port (\d+)/.exec(said);
      if (!port) return;
      clearTimeout(late);
      found(Number(port[1]));
    });
  });
}

// One request of the protocol; an error of the driver is thrown with its name and its first line.
async function request(address, method, path, body) {
  const answer = await fetch(address + path, {
    method,
    headers: { 'content-type': 'application/json' },
    body: method === 'POST' ? JSON.stringify(body ?? {}) : undefined,
  });
  const { value } = await answer.json();
  if (answer.ok) return value;
  throw new Error(`${value.error}: ${String(value.message).split('\n')[0]} (${method} ${path})`);
}

function capabilities(folder, downloads, { width, height, flags = [] }) {
  return {
    alwaysMatch: {
      browserName: 'chrome',
      'goog:loggingPrefs': { performance: 'ALL', browser: 'ALL' },
      'goog:chromeOptions': {
        binary: pathOf('chromium') ?? 'chromium',
        args: [
          '--headless=new', '--no-sandbox', '--disable-gpu', '--disable-dev-shm-usage', '--force-color-profile=srgb', '--no-first-run',
          '--disable-extensions', '--disable-component-update', '--disable-background-networking', '--hide-scrollbars',
          `--user-data-dir=${join(folder, 'profile')}`, `--window-size=${width},${height}`, ...flags,
        ],
        prefs: { 'download.default_directory': downloads, 'download.prompt_for_download': false },
      },
    },
  };
}

// Opens a browser with a window of a size. `downloads` is the folder that it saves into; close() takes it away.
export async function openBrowser({ width = 1280, height = 900, flags = [] } = {}) {
  const folder = mkdtempSync(join(tmpdir(), 'calqetum-browser-'));
  const downloads = join(folder, 'downloads');
  mkdirSync(downloads);
  const driver = await startDriver(folder).catch((error) => {
    rmSync(folder, { recursive: true, force: true });
    throw error;
  });
  const address = `http://127.0.0.1:${driver.port}/session`;
  let session;
  try {
    session = (await request(address, 'POST', '', { capabilities: capabilities(folder, downloads, { width, height, flags }) })).sessionId;
  } catch (error) {
    driver.end();
    throw error;
  }
  const ask = (method, path, body) => request(address, method, `/${session}${path}`, body);
  const close = async () => {
    await ask('DELETE', '').catch(() => null);
    driver.end();
  };
  const browser = { downloads, ...pageOf(ask), ...elementsOf(ask), ...recordsOf(ask), close };
  try {
    // The browser's own first page asks for much; what is logged from here on is the test's.
    await browser.open('about:blank');
    await browser.size(width, height);
    await browser.requests();
    await browser.complaints();
    return browser;
  } catch (error) {
    await close();
    throw error;
  }
}

// What concerns the page as a whole.
function pageOf(ask) {
  const script = (code, ...list) => ask('POST', '/execute/sync', { script: code, args: list });
  // Waits until code gives something that counts as true, and gives it.
  const until = async (code, ...list) => {
    const last = Date.now() + WAIT_MILLISECONDS;
    for (;;) {
      const value = await script(code, ...list);
      if (value) return value;
      if (Date.now() > last) throw new Error(`waited ${WAIT_MILLISECONDS} ms in vain for: ${code}`);
      await new Promise((go) => setTimeout(go, 20));
    }
  };
  return {
    open: (url) => ask('POST', '/url', { url }),
    script,
    until,
    // Sets the size of what the page is shown in, without the window's frame.
    size: (width, height) => devtools(ask, 'Emulation.setDeviceMetricsOverride', { width, height, deviceScaleFactor: 1, mobile: false }),
    // A command of the browser's developer tools, as Emulation.setEmulatedMedia.
    devtools: (command, parameters) => devtools(ask, command, parameters),
  };
}

const devtools = (ask, command, parameters = {}) => ask('POST', '/goog/cdp/execute', { cmd: command, params: parameters });

// What concerns elements; one is named by what find gives, which script takes as an argument too.
function elementsOf(ask) {
  const path = (element) => `/element/${element[ELEMENT]}`;
  const perform = (codes) => {
    const down = codes.map((value) => ({ type: 'keyDown', value }));
    const up = [...codes].reverse().map((value) => ({ type: 'keyUp', value }));
    return ask('POST', '/actions', { actions: [{ type: 'key', id: 'keyboard', actions: [...down, ...up] }] });
  };
  return {
    find: (css) => ask('POST', '/element', { using: 'css selector', value: css }),
    all: (css) => ask('POST', '/elements', { using: 'css selector', value: css }),
    text: (element) => ask('GET', `${path(element)}/text`),
    property: (element, name) => ask('GET', `${path(element)}/property/${name}`),
    attribute: (element, name) => ask('GET', `${path(element)}/attribute/${name}`),
    // The role and the name that a screen reader is told.
    role: (element) => ask('GET', `${path(element)}/computedrole`),
    label: (element) => ask('GET', `${path(element)}/computedlabel`),
    click: (element) => ask('POST', `${path(element)}/click`),
    clear: (element) => ask('POST', `${path(element)}/clear`),
    keys: (element, text) => ask('POST', `${path(element)}/value`, { text }),
    upload: (element, ...paths) => ask('POST', `${path(element)}/value`, { text: paths.map((one) => resolve(one)).join('\n') }),
    focused: () => ask('GET', '/element/active'),
    // Presses keys together where the focus is: press('Control', 'z'), press('Enter').
    press: (...names) => perform(names.map((name) => CODES[name] ?? name)),
  };
}

// What the browser has to show of itself: pictures, pages of paper, and its logs, each entry once.
function recordsOf(ask) {
  const logs = (type) => ask('POST', '/se/log', { type });
  return {
    async screenshot(path) {
      const bytes = Buffer.from(await ask('GET', '/screenshot'), 'base64');
      if (path) writeFileSync(path, bytes);
      return bytes;
    },
    pdf: async (options = {}) => Buffer.from(await ask('POST', '/print', options), 'base64'),
    logs,
    // What the page's scripts and the browser complained about since the last call.
    complaints: async () => (await logs('browser')).filter(({ level }) => !['INFO', 'DEBUG'].includes(level)).map(({ message }) => message),
    // The address of every request since the last call, the page's own file included.
    async requests() {
      const events = (await logs('performance')).map((entry) => JSON.parse(entry.message).message);
      const asked = { 'Network.requestWillBeSent': (sent) => sent.request.url, 'Network.webSocketCreated': (made) => made.url };
      return events.filter((event) => Object.hasOwn(asked, event.method)).map((event) => asked[event.method](event.params));
    },
  };
}
