// The texts of a certificate: the statements that it rests on, what is not proved, and the style of its file.

// Each statement, the file that has it, and what it says.
export const STATEMENTS = [
  ['sheet_rules', 'crates/sheet/specs/Rules.antt', 'the rules 1 to 11, in checking order'],
  ['rule26', 'crates/sheet/specs/Rules.antt', 'number 26, tested directly after them: each circuit has an entry in some schedule'],
  [
    'check_number',
    'crates/sheet/specs/Rules.antt',
    "the first of 1 to 11 and 26 that the sheet does not keep, 0 where it keeps them all; the sheet is what a file's words stand for: " +
      'themselves, and no words for an idle network',
  ],
  ['argo_verdict', 'crates/exports/src/lib.rt', 'the call that judged this sheet: by its contract, proved, its answer is just this number'],
  ['demand3', 'crates/isolation/proofs/DemandProved.antt', 'the theorem, proved: demand 3 holds'],
  ['Demand3', 'crates/isolation/specs/Demand.antt', 'what it states, one claim about lists of calls on a sheet that passes; of its parts:'],
  ['undisturbed', 'crates/isolation/specs/Demand.antt', 'two runs that are alike for a circuit are the same in all that it delivers'],
  ['as_reckoned', 'crates/isolation/specs/Demand.antt', 'what the calls answer for a circuit is reckoned from the sheet and its own calls'],
  [
    'lands',
    'crates/isolation/specs/Demand.antt',
    'a word that leaves in cycle t has landed after cycle t + 3 × (hops + 1), and a cycle more for each vertical hop where vertical links ' +
      'are long',
  ],
  ['cycles_carried_out', 'crates/isolation/specs/Demand.antt', 'no cycle is refused: words never meet on a wire'],
];

export const LONG_LINKS_NOTE =
  "The grid's vertical links are long: a word takes 3 × (hops + 1) cycles and one more for each vertical hop, to the north or the south.";

export const NOT_PROVED = [
  'The proofs are of the calls in Rattle. This certificate was worked out by the same calls compiled to WebAssembly; that translation is ' +
    'not proved. tests/planner/native.test.js compares its answers and all lent words with those of the archive that the kit builds.',
  'Reading the file, the tables of circuits and of isolation and the text of this certificate are JavaScript and not proved. The tests ' +
    'in tests/planner hold the tables to the proved verdicts, landings and registers, and to a second table written from the rules alone.',
  'That these rules are the right ones for a chip is not proved: what they are is in the files named above.',
];

// The style has no character that markup escapes.
export const STYLE = `
@page { size: A4; margin: 18mm; }
body { font: 10pt/1.4 sans-serif; color: #000; background: #fff; max-width: 60em; margin: 2em auto; padding: 0 1em; }
h1 { font-size: 1.6em; }
h2 { font-size: 1.15em; margin-top: 1.6em; break-after: avoid; }
.verdict { font-size: 1.15em; font-weight: bold; border: 1pt solid #000; padding: 0.5em 0.8em; }
dt { font-weight: bold; }
dd { margin: 0 0 0.4em 0; overflow-wrap: anywhere; }
table { border-collapse: collapse; }
thead { display: table-header-group; }
tr { break-inside: avoid; }
th, td { border: 0.5pt solid #777; padding: 0.15em 0.4em; text-align: left; vertical-align: top; overflow-wrap: break-word; }
.rows td { max-width: 20em; font-family: monospace; font-size: 0.85em; }
.long { overflow-wrap: anywhere; }
pre { white-space: pre-wrap; overflow-wrap: anywhere; font-size: 0.85em; }
@media print { body { margin: 0; padding: 0; max-width: none; } }
`;
