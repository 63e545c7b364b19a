// The command certificate: what was judged and what follows, as a file to print and to keep.
import { explain } from '../lib/explain.js';
import { certificateFile } from '../lib/certificate.js';
import { sha256 } from '../lib/sha256.js';
import { holdCount } from './arguments.js';
import { wrongUse } from './failures.js';
import { readableSheet } from './files.js';
import { holdTarget, writeFile } from './output.js';
import { about, openProved } from './proved.js';
import { sayRefusal } from './refusal.js';

export async function certificate(paths, options) {
  holdCount(paths, 1, 1, 'one FILE');
  const out = options['-o'];
  if (out === undefined) throw wrongUse('-o F.html is wanted: where the certificate goes');
  holdTarget(out, paths);
  const sheet = readableSheet(paths[0], options);
  if (!sheet) return 2;
  const calls = await openProved();
  const verdict = calls.verdict(sheet.document.words);
  const explanation = verdict === 0 ? null : explain(sheet.document, calls.verdict);
  writeFile(out, certificateFile(sheet.document, { verdict, about: about(), fileHash: sha256(sheet.bytes), explanation }));
  if (verdict !== 0) sayRefusal(sheet.path, sheet.document, calls);
  return verdict === 0 ? 0 : 1;
}
