// The planner's command: reads the words of the command line and hands them to the command that they name.
import { cut } from '../lib/document.js';
import { readArguments } from './arguments.js';
import { certificate } from './certificate.js';
import { check, explainFile } from './check.js';
import { draw } from './draw.js';
import { wrongUse } from './failures.js';
import { hours } from './hours.js';
import { mark } from './mark.js';
import { compare, modes } from './modes.js';
import { print, say, watchOutput } from './output.js';
import { page, version } from './page.js';
import { run } from './run.js';
import { USAGE, WHOLE } from './usage.js';

const OPTIONS = {
  '--help': 'flag',
  '-h': 'flag',
  '--version': 'flag',
  '--json': 'flag',
  '--exam': 'flag',
  '--names': 'flag',
  '--grid': 'flag',
  '--cycles': 'value',
  '--cycle': 'value',
  '--mode': 'value',
  '-o': 'value',
};

const MOST_MESSAGE = 5000;

// Each command, and the options that it takes.
const COMMANDS = {
  check: [check, '--exam', '--json'],
  explain: [explainFile, '--exam', '--json'],
  modes: [modes, '--exam', '--json'],
  compare: [compare, '--exam', '--json'],
  hours: [hours, '--exam', '--json'],
  run: [run, '--cycles', '--names', '--exam', '--json'],
  draw: [draw, '-o', '--mode', '--grid', '--cycles', '--cycle', '--exam'],
  mark: [mark, '--cycles', '--exam', '--json'],
  certificate: [certificate, '-o', '--exam'],
  page: [page, '--json'],
  version: [version, '--version', '--json'],
};

async function carryOut(words) {
  const { options, rest } = readArguments(words, OPTIONS);
  const help = rest[0] === 'help' || options['--help'] || options['-h'];
  const [named, ...names] = rest[0] === 'help' ? rest.slice(1) : rest;
  const name = named ?? (options['--version'] ? 'version' : null);
  if (name === null) return help ? printed(WHOLE) : noCommand();
  if (!Object.hasOwn(COMMANDS, name)) throw wrongUse(`there is no command ${name}; the commands are ${Object.keys(COMMANDS).join(', ')}`);
  if (help) return printed(USAGE[name]);
  const [command, ...known] = COMMANDS[name];
  const stray = Object.keys(options).find((option) => !known.includes(option));
  if (stray) throw wrongUse(`${name} takes no ${stray}`);
  return command(names, options);
}

function noCommand() {
  say(WHOLE);
  return 2;
}

function printed(text) {
  print(text);
  return 0;
}

watchOutput();
try {
  const status = await carryOut(process.argv.slice(2));
  process.exitCode = Math.max(status, process.exitCode ?? 0);
} catch (error) {
  // A message is one line, whatever names and words it repeats.
  say(`calqetum: ${cut(error.message, MOST_MESSAGE)}`);
  if (error.use) say('calqetum: --help says how it is used');
  else if (!error.expected) say(error.stack);
  process.exitCode = 2;
}
