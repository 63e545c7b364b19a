// The proved calls for the command: taken out of the page, so that page and command cannot differ.
import { readFileSync } from 'node:fs';
import { dirname, join } from 'node:path';
import { fileURLToPath } from 'node:url';
import { openCalls } from '../lib/calls.js';

export const planner = dirname(dirname(fileURLToPath(import.meta.url)));
export const pagePath = join(planner, 'calqetum.html');

// The module's bytes as the page has them.
export function provedBytes() {
  const found = /<script type="application\/wasm" id="proved">([^<]*)<\/script>/.exec(readFileSync(pagePath, 'utf8'));
  if (!found) throw new Error('planner/calqetum.html has no proved calls in it: planner/build writes it anew');
  return Buffer.from(found[1], 'base64');
}

export const openProved = () => openCalls(provedBytes());

// The project's version and the kit that the calls were built with.
export function about() {
  const line = (name) => readFileSync(join(planner, name), 'utf8').trim();
  return { version: line('version'), kit: line('kit') };
}
