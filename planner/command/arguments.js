// The words of a command line: options, which may stand anywhere before --, and what is left.
import { wrongUse } from './failures.js';
import { grouped } from './output.js';

// Reads the words by the options that a command knows: a name, and whether a value follows. Short names stand beside: '-o'.
export function readArguments(words, known) {
  const options = {};
  const rest = [];
  for (let at = 0; at < words.length; at++) {
    const word = words[at];
    if (word === '--') return { options, rest: [...rest, ...words.slice(at + 1)] };
    if (!word.startsWith('-') || word === '-') {
      rest.push(word);
      continue;
    }
    const { name, value } = divided(word);
    if (!Object.hasOwn(known, name)) throw wrongUse(`there is no option ${name}`);
    if (Object.hasOwn(options, name)) throw wrongUse(`${name} stands twice`);
    if (known[name] === 'flag') {
      if (value !== null) throw wrongUse(`${name} takes no value`);
      options[name] = true;
    } else {
      const missing = at + 1 >= words.length || Object.hasOwn(known, words[at + 1]);
      options[name] = value ?? (missing ? '' : words[++at]);
      if (options[name] === '') throw wrongUse(`${name} needs a value behind it`);
    }
  }
  return { options, rest };
}

// An option and its value where both are one word: --cycles=20, -oF.svg, -o=F.svg.
function divided(word) {
  const sign = word.indexOf('=');
  if (word.startsWith('--')) return sign < 0 ? { name: word, value: null } : { name: word.slice(0, sign), value: word.slice(sign + 1) };
  return { name: word.slice(0, 2), value: word.length > 2 ? word.slice(sign === 2 ? 3 : 2) : null };
}

// The value of an option as a whole number of a range, or null where it is not there.
export function numberOption(options, name, least, most) {
  if (!Object.hasOwn(options, name)) return null;
  const text = options[name];
  const value = /^[0-9]{1,9}$/.test(text) ? Number(text) : null;
  if (value !== null && value >= least && value <= most) return value;
  throw wrongUse(`${name} takes a whole number from ${least} to ${grouped(most)}, and not ${text}`);
}

// Holds the number of names to what a command takes.
export function holdCount(rest, least, most, wanted) {
  if (rest.length < least) throw wrongUse(`${wanted} is wanted`);
  if (rest.length > most) throw wrongUse(`${rest[most]} is one name too many: ${wanted} is wanted`);
}
