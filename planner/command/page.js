// The commands page and version: where the page is, and what this is.
import { spawn } from 'node:child_process';
import { existsSync } from 'node:fs';
import { pathToFileURL } from 'node:url';
import { holdCount } from './arguments.js';
import { failedBecause } from './failures.js';
import { print, printJson } from './output.js';
import { about, pagePath } from './proved.js';

// Prints where the page is, and opens it where there is a display; that it does not open is no failure.
export async function page(names, options) {
  holdCount(names, 0, 0, 'no name');
  if (!existsSync(pagePath)) throw failedBecause('planner/calqetum.html is not there: planner/build writes it');
  const place = pathToFileURL(pagePath).href;
  if (options['--json']) printJson({ page: place });
  else {
    print(place);
    openPlace(place);
  }
  return 0;
}

function openPlace(place) {
  const display = process.env.DISPLAY || process.env.WAYLAND_DISPLAY;
  const opener = process.platform === 'darwin' ? 'open' : display ? 'xdg-open' : null;
  if (!opener) return;
  const opened = spawn(opener, [place], { detached: true, stdio: 'ignore' });
  opened.on('error', () => {});
  opened.unref();
}

export async function version(names, options) {
  holdCount(names, 0, 0, 'no name');
  const known = about();
  if (options['--json']) printJson(known);
  else print(`calqetum ${known.version}, calls built with ${known.kit}`);
  return 0;
}
