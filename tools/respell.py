#!/usr/bin/env python3
"""Brings the names of definitions, fields and lemmas to snake case, in every .antt file, in the clauses of .rt files and in must-fail edits.

usage: python3 tools/respell.py [--check]      at the top, directly after the kit's port.py; run once

A name is turned where crates/*/specs or crates/*/proofs declares it: `a-b` and `aB` become `a_b`. Names of proof goals, types and modules keep
their spelling, and so does what stands in src/ outside clauses. --check prints the names that fall together and writes nothing.
"""

import glob
import re
import sys

# Two names that would fall together, or that a word of the library or of the language has: the new spelling by hand.
BY_HAND = {
    "acts-in": "acts_in_at",
    "bad-loads": "bad_loads_refused",
    "carried-out": "is_carried_out",
    "each-entry": "each_entry_of",
    "in-region": "in_region_when",
    "is-cycle": "a_cycle",
    "none-begins": "none_begins_before",
    "order-after": "order_after_inside",
    "schedule-after": "schedule_after_inside",
    "same-wire": "same_wire_by_number",
    "bit-or": "bit_or_at",
    "extra-mark": "extra_mark_at",
    "extra-word": "extra_word_at",
    "last-delay": "last_delay_at",
    "to-go": "to_go_at",
    "source-word": "source_word_is",
    "same-lengths": "same_lengths",
    "in-force": "in_force",
    "source-wire": "source_wire",
    "cycle-now": "cycle_now",
    "write-at": "write_at",
    "mark-at": "mark_at",
}

# Names of parameters and of imports under another name, which no line declares.
PARAMETERS = {
    "answerWords": "answer_words",
    "nodeCount": "node_count",
    "nodesOf": "nodes_of",
    "windowOf": "window_of",
    "sheetVerdict": "sheet_verdict",
    "roomOf": "room_of",
    "readSize": "read_size",
    "readOffset": "read_offset",
    "receiveSize": "receive_size",
    "receiveOffset": "receive_offset",
    "periodOf": "period_of",
    "source-marks": "source_marks",
    "source-words": "source_words",
    "out-marks": "out_marks",
    "out-words": "out_words",
    "circuitWords": "circuit_words",
    "entryWords": "entry_words",
}

# Names that port.py had turned already and that fall together with one turned here, each in its file.
IN_FILE = {
    "crates/network/proofs/QuietLaws.antt": {"empty-at": "empty_place"},
    "crates/sheet/proofs/ServedLaws.antt": {"mark-at": "mark_within", "mark_at": "mark_within"},
    "crates/isolation/proofs/Reckoning/SenderFollowed.antt": {"opened-now": "opened_now_is", "opened_now": "opened_now_is"},
    "crates/timetable/proofs/TimetableLaws.antt": {"in_order": "in_order_when"},
    "crates/machine/proofs/JoinLaws.antt": {"memory_word": "memory_word_is"},
    "crates/machine/proofs/CarryLaws.antt": {"memory_word": "memory_word_is"},
}

TOKEN = re.compile(r"[^\s(){}\[\];,.|`\"@:\u03bb]+")
HEAD = re.compile(r"^((?:pub |private |unfoldable |abbrev |opaque )*)([A-Za-z][^\s(){}\[\];,.:]*)\s*:\s")
FIELD = re.compile(r"^\s+(?:pub |private |unfoldable |abbrev |opaque )*([A-Za-z][^\s(){}\[\];,.:]*)\s*:\s")


def snake(name):
    out = re.sub(r"(?<=[a-z0-9])([A-Z])|(?<=[A-Z])([A-Z])(?=[a-z])", lambda m: "_" + m.group(0).lower(), name.replace("-", "_"))
    return out


def to_turn(name):
    if not re.match(r"[a-z]", name):
        return False
    return "-" in name or re.search(r"[a-z0-9][A-Z]", name)


def declared(path):
    """Names that a file declares: definitions and lemmas, fields of records and constructors of data."""
    own, fields = set(), set()
    inside = None
    for line in open(path, encoding="utf-8"):
        if line.strip() and not line[0].isspace():
            inside = "where" if re.match(r"(pub )?(record|data) ", line) else None
            m = HEAD.match(line)
            if m and not re.search(r": (tie|goal)\.", line) and not re.search(r": .*\bstatement M\b", line):
                own.add(m.group(2))
        else:
            # Fields, constructors, and what a module within the file declares.
            m = FIELD.match(line)
            if m and not re.search(r": (tie|goal)\.", line):
                (fields if inside else own).add(m.group(1))
    return own, fields


def files():
    antt = sorted(set(glob.glob("crates/*/specs/**/*.antt", recursive=True) + glob.glob("crates/*/proofs/**/*.antt", recursive=True)))
    return antt, sorted(glob.glob("crates/*/src/**/*.rt", recursive=True)), sorted(glob.glob("crates/*/must-fail/*.edit"))


def turned(text, names):
    return TOKEN.sub(lambda m: names.get(m.group(0), m.group(0)), text)


def turned_ticks(text, names):
    """A comment: only what stands in backticks."""
    return re.sub(r"`[^`\n]*`", lambda m: turned(m.group(0), names), text)


def antt_text(text, names):
    out = []
    for line in text.split("\n"):
        at = re.search(r"(^|\s)--(\s|$)", line)
        if at:
            out.append(turned(line[: at.start()], names) + turned_ticks(line[at.start():], names))
        else:
            out.append(turned(line, names))
    return "\n".join(out)


def clause_spans(text):
    """The spans of requires, ensures and ghost items of a source."""
    spans = []
    for m in re.finditer(r"^\s*(?:requires|ensures|ghost)\b[^\n]*", text, re.M):
        start, depth, i = m.start(), 0, m.start()
        seen = False
        while i < len(text):
            c = text[i]
            if c == "{":
                depth += 1
                seen = True
            elif c == "}":
                depth -= 1
                if depth == 0 and seen:
                    i += 1
                    break
            elif c == ";" and depth == 0:
                break
            i += 1
        spans.append((start, i))
    return spans


def rt_text(text, names):
    out, at = [], 0
    for a, b in clause_spans(text):
        if a < at:
            continue
        out.append(re.sub(r"//[^\n]*", lambda m: turned_ticks(m.group(0), names), text[at:a]))
        out.append(turned(text[a:b], names))
        at = b
    out.append(re.sub(r"//[^\n]*", lambda m: turned_ticks(m.group(0), names), text[at:]))
    return "".join(out)


def main():
    check = "--check" in sys.argv
    antt, rt, edits = files()
    own, fields, where = set(), set(), {}
    for p in antt:
        o, f = declared(p)
        for n in o | f:
            where.setdefault(n, []).append(p)
        own |= o
        fields |= f
    names = {}
    camel = {snake(n) for n in own | fields if to_turn(n) and "-" not in n}
    for n in sorted(own | fields):
        if n in BY_HAND:
            names[n] = BY_HAND[n]
        elif to_turn(n):
            # A law or a field beside the definition that it is about.
            names[n] = snake(n) + ("_is" if "-" in n and snake(n) in camel else "")
    names.update(PARAMETERS)
    back = {}
    for n in sorted(own | fields):
        back.setdefault(names.get(n, n), []).append(n)
    for new, olds in sorted(back.items()):
        if len(olds) > 1:
            print("together:", new, "<-", ", ".join(f"{o}{' (field)' if o in fields else ''} in {len(where[o])}" for o in olds))
    # Within one file no two imports or definitions may have one name.
    for p in antt:
        text = open(p, encoding="utf-8").read()
        new = antt_text(text, {**names, **IN_FILE.get(p, {})})
        seen = {}
        for m in re.finditer(r"^(?:pub )?use ([^\s{]+)\.\{([^}]*)\}", new, re.M):
            for w in m.group(2).split(","):
                w = w.strip().split(" as ")[-1].strip()
                if w and w in seen and seen[w] != m.group(1):
                    print("twice:", p, w, seen[w], m.group(1))
                seen[w] = m.group(1)
        _, inner = declared(p)
        for n in sorted(inner):
            if names.get(n, n) in seen:
                print("field:", p, n, names.get(n, n), seen[names.get(n, n)])
        for m in re.finditer(HEAD.pattern, new, re.M):
            w = m.group(2)
            if w in seen:
                print("twice:", p, w, seen[w], "own")
            seen[w] = "own"
        if not check and new != text:
            open(p, "w", encoding="utf-8").write(new)
    for p in rt:
        text = open(p, encoding="utf-8").read()
        new = rt_text(text, names)
        if not check and new != text:
            open(p, "w", encoding="utf-8").write(new)
    for p in edits:
        text = open(p, encoding="utf-8").read()
        new = turned(text, names)
        if not check and new != text:
            open(p, "w", encoding="utf-8").write(new)
    print(f"{len(names)} names turned")


main()
