// What --help prints, for the whole and for each command.

const STATUS = `exit status
  0  carried out, or the sheet passes
  1  refused
  2  nothing could be judged: a file cannot be read (its cells are named), or wrong use`;

const SHEETS = "A FILE is a plan (.csv or .tsv, as spreadsheets save it) or a sheet's words (.sheet or .words: numbers, # comments).";
const EXAM = '  --exam   circuits and slots stay in the order of the rows, so that their order is judged too';
const JSON_OPTION = '  --json   prints JSON instead of lines';

export const WHOLE = `usage: calqetum COMMAND ..

Judges and runs the circuit sheets of a time-division network-on-chip, by the proved calls.
  check FILE..                passes, or refused and the number of the rule
  explain FILE                why a sheet is refused, down to the cell, and what would help
  modes FILE [CIRCUIT]        what each circuit gets in each mode, and whom a switch of modes disturbs
  compare OLD NEW             whom a change of the sheet disturbs
  hours FILE [MINUTE]         which mode belongs to a minute of the week, and when the next begins
  run FILE --cycles N         what lands where, cycle by cycle
  draw FILE -o F.svg          the slots of its modes, or with --grid the words under way, as a picture
  mark KEY PAPER..            marks papers against the right lines
  certificate FILE -o F.html  what was judged and what follows, to print and to keep
  page                        where the page is, for the same in a browser
  version                     the version, and what the calls were built with

calqetum COMMAND --help says more. Options may stand anywhere; -- ends them.
${SHEETS}

${STATUS}`;

export const USAGE = {
  check: `usage: calqetum check FILE.. [--exam] [--json]

Judges sheets: for one file the line 'passes' or 'refused N', for several a line 'NAME: passes' each. Why a sheet is refused is said on
standard error. Cells that cannot be read are named there, and the other files are judged all the same; the status is the highest.
${SHEETS}
${EXAM}
${JSON_OPTION}

${STATUS}`,
  explain: `usage: calqetum explain FILE [--exam] [--json]

Says why a sheet is refused: the number and the rule, which cells, and what would help; each help is tried with the proved checker.
${EXAM}
${JSON_OPTION}

${STATUS}`,
  modes: `usage: calqetum modes FILE [CIRCUIT] [--exam] [--json]

For each circuit, or the one that is named: its slots, payload words a period and a cycle in each mode, and how long a word is under way.
Then for each two modes: undisturbed, silent in both, or what differs; and what 'undisturbed' means.
${EXAM}
${JSON_OPTION}

${STATUS}`,
  compare: `usage: calqetum compare OLD NEW [--exam] [--json]

For each circuit and mode that both sheets have: undisturbed, silent in both, or what differs. Circuits and modes are matched by name;
where a file has words and no names, circuits by their six words and modes by number. Both sheets have as many columns and rows, and
vertical links of one kind, long or not.
${EXAM}
${JSON_OPTION}

exit status
  0  compared
  1  a sheet is refused, or the grids or their kinds differ, so that nothing can be said
  2  a file cannot be read (its cells are named), or wrong use`,
  hours: `usage: calqetum hours FILE [MINUTE] [--exam] [--json]

Says which mode the window rows of a plan give a minute of the week, and when it changes next; without MINUTE, the whole week in lines
'from to mode'. Outside all windows it is the first mode. The timetable orders no switch: an at row with order does. Where the windows or
the minute are refused, the only line is 'refused 31' or 'refused 32', and standard error says why and what would help. The sheet itself
is not judged here: check does that. A file of words has no window rows and is not taken.
  MINUTE   a day and a time as Mo 08:30, in one word or two (Mo, Tu, We, Th, Fr, Sa, Su or the whole English name; 0:00 to 23:59); the
           minute of the week from Mo 00:00 on, 0 to 10079 (a greater word is refused with 32); or now, by this
           computer's clock
  --exam   windows stay in the order of the rows, so that their order is judged too
${JSON_OPTION}

exit status
  0  answered
  1  refused: 31, the windows do not make a timetable, or 32, the minute is not one of the week
  2  the file cannot be read (its cells are named), it has words and no rows, or wrong use`,
  run: `usage: calqetum run FILE --cycles N [--names] [--exam] [--json]

Runs a sheet with its memory and at rows for N cycles (at most 65,536) and lists what landed: cycle, node, address, word and kind
(0 data, 2 interrupt). Where the sheet or a row is refused, the only line is 'refused N', and standard error says why. A start is refused
with 17 until the last word of its circuit's transfer before has landed.
  --names  names the circuit and the kind behind each line
${EXAM}
${JSON_OPTION}

${STATUS}`,
  draw: `usage: calqetum draw FILE -o F.svg [--mode NAME] [--exam]
       calqetum draw FILE --grid -o F.svg [--mode NAME] [--cycles N | --cycle T] [--exam]

Draws the slots on the wires of one mode, or of all modes one below the other; a refused sheet is drawn too, with its clashes marked.
Of a refused sheet with over 8 modes the first 8 are drawn.
  -o F.svg     where the picture goes; - is standard output. No .csv, .tsv, .sheet or .words is written over
  --mode NAME  one mode alone
  --grid       draws the nodes with the words under way instead: what the at rows of the file do; or with every circuit kept sending,
               where the file has no at rows or a mode is named (without --mode the first). A circuit that is kept sending starts its next
               transfer when the last word of the one before has landed
  --cycles N   so many cycles, animated: 1 to 400 (if not given, three periods, but at most 120)
  --cycle T    one cycle, still
  --exam       circuits and slots stay in the order of the rows

${STATUS}`,
  mark: `usage: calqetum mark KEY PAPER.. [--cycles N] [--exam] [--json]

Marks papers. KEY is a sheet, or a folder of sheets (.csv, .tsv, .sheet, .words); the right lines are worked out by the proved calls:
the verdict ('passes' or 'refused N') and, with --cycles N, what lands in N cycles. A PAPER is a text with lines as check and run print
them, or a folder of such papers. Where KEY is a folder, a verdict has its sheet's name in front ('a.csv: passes'), and a listing stands
below a line 'a.csv:' or '# a.csv'. Where KEY is one sheet, lines need no name; all may have one other name. Blank lines count for nothing,
nor do comments (a # that begins the line or stands behind a blank), capitals, blanks and the order of lines.
  right    the line is the key's
  wrong    the verdict, or the address, word or kind of a landing, is another; or the paper has different answers to it
  missing  the key has a line that the paper lacks
  surplus  nothing lands there, the line is a further one, is about another sheet, or cannot be read (1,000 are listed, all are counted)
${EXAM}
${JSON_OPTION}

exit status
  0  all papers are marked, whatever the marks
  2  the key or a paper cannot be read, a folder of papers has folders in it (they are named), or wrong use`,
  certificate: `usage: calqetum certificate FILE -o F.html [--exam]

Writes a certificate: the sheet, its hashes, the verdict, what each circuit gets, whom a switch of modes disturbs, and what all this rests
on. A refused sheet gets a certificate of refusal. The same file gives the same certificate, to the byte.
  -o F.html  where it goes; - is standard output. No .csv, .tsv, .sheet or .words is written over
  --exam     circuits and slots stay in the order of the rows, so that their order is judged too

${STATUS}`,
  page: `usage: calqetum page [--json]

Prints where the page is and, where there is a display, opens it in a browser. It works without a network.
${JSON_OPTION}`,
  version: `usage: calqetum version [--json]

Prints the version of Calqetum and the kit that its calls were built with.
${JSON_OPTION}`,
};
