#!/usr/bin/env python3
"""Brings the names of the repository's own definitions and lemmas to the spelling of today's Rattle.

Run once, after port.py, at the top of the repository: definitions, fields and lemmas in snake case; a dash stands only
between two names, or behind a type. Functions of src/, exported C names, strings, inputs and outputs keep their names.
It prints what it renamed, and stops before it writes where two names would fall together.
"""
import collections
import glob
import re
import sys

TOKEN = re.compile(r"[A-Za-z_][A-Za-z0-9_'-]*")
# names that would fall together with another: the lemma, or the local, gives way
FIRST = {
    "all_hold": "all_hold_lem",
    "comes_back": "comes_back_lem",
    "goes_on": "goes_on_lem",
    "no_wrap": "no_wrap_lem",
    "one_more": "one_more_lem",
    "too_long": "too_long_lem",
    "has-work": "has_work_lem",
    "is-marked": "is_marked_lem",
    "mark-in": "mark_in_lem",
    "mark-of": "mark_of_lem",
    "record-byte": "record_byte_lem",
    "ret-is": "ret_is_lem",
    "returns-differ": "returns_differ_lem",
    "same-mark": "same_mark_lem",
    "some-record": "some_record_lem",
    "two-ports": "two_ports_lem",
    "ways-differ": "ways_differ_lem",
    "with-ports": "with_ports_lem",
    "work-is": "work_is_lem",
    "wrong-sheet": "wrong_sheet_lem",
    "after-other": "after_other_lem",
    "machine_after": "machine_is",
    "sheet_after": "sheet_is",
    "notCall": "not_a_call",
    "notReturn": "not_a_return",
}


def files(*patterns):
    return sorted(f for p in patterns for f in glob.glob(p, recursive=True))


SPECS = files("crates/*/specs/**/*.antt")
LEMMAS = [f for f in files("crates/*/proofs/*.antt")]
ANSWERS = [f for f in files("crates/*/proofs/**/*.antt") if f not in LEMMAS]
SOURCES = files("crates/*/src/**/*.rt")


STRING = re.compile(r'"(?:[^"\\\n]|\\.)*"')


def code(text, mark):
    if mark == "//":
        text = STRING.sub('""', text)
    return "\n".join(re.sub(r"(^|\s)" + mark + r"(\s.*)?$", "", line) for line in text.split("\n"))


def defined(path):
    names = set()
    for line in code(open(path).read(), "--").split("\n"):
        m = re.match(r"\s*((?:abbrev |unfoldable |pub |data |record )*)([A-Za-z_][A-Za-z0-9_'-]*) (?:[({:]|$)", line)
        if m and (" : " in line or "data" in m.group(1) or "record" in m.group(1)):
            names.add(m.group(2))
    return names


def snake(name):
    return re.sub(r"(?<=[a-z0-9])([A-Z])", lambda m: "_" + m.group(1).lower(), name)


def is_camel(part):
    return re.fullmatch(r"[a-z][A-Za-z0-9_']*", part) and re.search(r"[a-z][A-Z][a-z]|[a-z][A-Z]$", part)


def spelled(name, words):
    parts = [snake(p) if is_camel(p) else p for p in name.split("-")]
    out, segment = "", parts[0]
    for i, part in enumerate(parts[1:], 1):
        rest = "_".join(parts[i:])
        joins = segment in words and (part in words or rest in words)
        if joins or re.match(r"[A-Z]", segment):
            out, segment = out + segment + "-", part
        else:
            segment += "_" + part
    return out + segment


def main():
    own = set()
    definitions = set()
    for f in SPECS:
        definitions |= defined(f)
    own |= definitions
    for f in LEMMAS:
        own |= defined(f)
    theirs = set()
    for f in SPECS + LEMMAS + ANSWERS + SOURCES:
        text = open(f).read()
        for m in re.finditer(r"use ((?:Rattle\.std|native|borrow|types|denote|lib|mathlib|Prim|logic|seplogic)[\w.·]*)\.\{([^}]*)\}", text):
            theirs |= {n.split(" as ")[0].strip() for n in m.group(2).split(",")}
    words = {snake(d) for d in definitions if "-" not in d} | {t for t in theirs if re.fullmatch(r"[a-z][a-z_0-9]*", t)}
    # locals and fields in the older spelling, wherever they stand
    used = collections.Counter()
    for f in SPECS + LEMMAS + ANSWERS + SOURCES:
        mark = "//" if f.endswith(".rt") else "--"
        for t in TOKEN.findall(code(open(f).read(), mark)):
            used[t] += 1
    renamed = dict(FIRST)
    for name in sorted(set(used) | own):
        if name in theirs or name in renamed or re.match(r"[A-Z]", name):
            continue
        camel = any(is_camel(p) for p in name.split("-"))
        if camel or name in own:
            new = spelled(name, words)
            if new != name:
                renamed[name] = new
    made = collections.defaultdict(set)
    for old, new in renamed.items():
        made[new].add(old)
    bad = []
    functions = set()
    for f in SOURCES:
        functions |= set(re.findall(r"\bfn (\w+)", open(f).read()))
    for new, olds in made.items():
        if len(olds) > 1:
            bad.append((new, sorted(olds)))
        elif used[new] and new not in renamed and new not in functions:
            bad.append((new, sorted(olds) + ["(stands already)"]))
    for new, olds in sorted(bad):
        print("falls together:", new, olds)
    if bad and "--force" not in sys.argv:
        sys.exit(1)
    for f in SPECS + LEMMAS + ANSWERS + SOURCES + files("crates/*/must-fail/*.edit"):
        text = open(f).read()
        # the strings of a program stay as they are
        kept = STRING if f.endswith(".rt") else None
        pieces, last = [], 0
        for m in kept.finditer(text) if kept else ():
            pieces += [(text[last : m.start()], True), (m.group(0), False)]
            last = m.end()
        pieces.append((text[last:], True))
        new = "".join(TOKEN.sub(lambda m: renamed.get(m.group(0), m.group(0)), p) if turn else p for p, turn in pieces)
        if new != text:
            open(f, "w").write(new)
    for old in sorted(renamed):
        print(old, renamed[old])


main()
