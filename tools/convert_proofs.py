#!/usr/bin/env python3
"""Turns the proof files of a crate, proofs/F/Proof.antt, to Answers.antt and Invariants.antt.

usage: python3 tools/convert_proofs.py CRATE..    at the top of the repository, each crate's own libraries being proved

The list that Proof.antt gives to tie.spec has a term for each goal in the order of the code, and so has the list of goals
that `rt check --generated FOLDER --old-names` writes: the terms go under today's names, and paths into the facts lose
their `.before`s and take the names of today's steps. What it can not turn it leaves, and the check says so.
"""
import json
import os
import re
import subprocess
import sys
import tempfile

TOKEN = r"[A-Za-z_][\w'-]*"


def imports(text):
    return [line for line in text.split("\n") if line.startswith("use ")]


def split_terms(body):
    """The arguments of tie.spec: names and parenthesised terms."""
    out, i, n = [], 0, len(body)
    while i < n:
        ch = body[i]
        if ch.isspace():
            i += 1
        elif ch == "(":
            depth, j = 0, i
            while True:
                depth += {"(": 1, ")": -1}.get(body[j], 0)
                j += 1
                if depth == 0:
                    break
            out.append(body[i:j])
            i = j
        elif ch == ")":
            break
        else:
            j = i
            while j < n and not body[j].isspace() and body[j] not in "()":
                j += 1
            out.append(body[i:j])
            i = j
    return out


def declarations(text):
    """name -> (lines between the signature and the clauses, clause text), for the column-0 declarations"""
    found = {}
    lines = text.split("\n")
    i = 0
    while i < len(lines):
        m = re.match(r"(?:abbrev )?(?:pub )?(" + TOKEN + r") : (.*)$", lines[i])
        if m:
            name, j = m.group(1), i + 1
            while j < len(lines) and lines[j].startswith((" ", "\t")) and not re.match(r"\s*" + re.escape(name) + r"\b.*=", lines[j]):
                j += 1
            extra = []
            while j < len(lines) and lines[j].startswith("unfolding"):
                extra.append(lines[j])
                j += 1
            start = j
            while j < len(lines) and (lines[j].startswith((name + " ", "  ", ")")) or (lines[j] == "" and j + 1 < len(lines) and lines[j + 1].startswith("  "))):
                j += 1
            found[name] = (m.group(2), extra, "\n".join(lines[start:j]), (i, j))
            i = j
        else:
            i += 1
    return found


class Turn:
    def __init__(self, data):
        self.steps = {}
        self.clauses = {}
        self.params = {}
        self.arms = {}
        for place, arm, clause in zip(data["places"], data["arms"], data["clauses"]):
            old, new = place[2]
            if old:
                self.steps.setdefault(old, new)
            k = re.fullmatch(r"At-(match\d*)-(keys\d+|rest)", place[0])
            if k:
                self.arms.setdefault((k.group(1), (k.group(2),)), new + ".is")
            if old and place[3] and data["params"].get(place[3]):
                self.params[new] = data["params"][place[3]]
            if clause:
                self.clauses[new] = clause["fields"]
            if arm:
                for field, step, fields in arm[2]:
                    self.arms[(step, tuple(fields))] = arm[0] + "." + field
        self.typed = {}
        for row in data["typed"]:
            for var, old in row:
                self.typed[old] = var
        self.loops = {}
        for ((old, new), names), changed in zip(data["loops"], data["changed"]):
            self.loops[old] = (new, names, changed)
        self.left = []

    def path(self, m):
        parts = [p for p in m.group(0).split(".")[1:] if p != "before"]
        if not parts:
            return "c"
        first = parts[0].replace("-", "_") if not parts[0].startswith("loop") else parts[0]
        first = {"type_size": "size_of", "well_formed_2": "well_formed2"}.get(first, first)
        if first in self.typed and len(parts) > 1 and parts[1] == "given":
            return ".".join(["c", "type_inv", self.typed[first]] + parts[2:])
        if first in ("args", "requires", "ranges", "lifetimes", "well_formed"):
            return ".".join(["c"] + parts)
        for n in range(len(parts), 0, -1):
            arm = self.arms.get((first, tuple(parts[1:n])))
            if arm and n > 1:
                return ".".join(["c", arm] + parts[n:])
        if first in self.steps and self.steps[first] in self.clauses and parts[1] == "ensures":
            fields = self.clauses[self.steps[first]]
            rest = parts[2:]
            if len(fields) == 1:
                return ".".join(["c", self.steps[first], "ensures", fields[0]] + rest)
            if rest and rest[0].isdigit():
                return ".".join(["c", self.steps[first], "ensures", fields[int(rest[0])]] + rest[1:])
        new = self.steps.get(first)
        if new in self.params and parts[1] == "new" and len(parts) > 2 and parts[2].isdigit():
            return ".".join(["c", new, "new", self.params[new][int(parts[2])]] + parts[3:])
        if first in self.steps:
            return ".".join(["c", self.steps[first]] + parts[1:])
        base = re.sub(r"-test$", "", first)
        if base in self.loops:
            return ".".join(["c", self.loops[base][0] + first[len(base):]] + parts[1:])
        self.left.append(parts[0])
        return ".".join(["c"] + parts)

    def term(self, text):
        return re.sub(r"\bc(?:\.(?:" + TOKEN + r"|\d+))+", self.path, text)


def invariant(clause, new, names, changed):
    head, body = clause.split("=", 1)
    words = head.split()[1:]
    sub = {}
    for word, name, moves in zip(words, names, changed):
        sub[word] = "l.initial." + name if moves else "l." + name
    for word, name in zip(words[len(names):], [n for n, moves in zip(names, changed) if moves]):
        sub[word] = "l." + name
    # a field's name in a record is none of the variables
    body = re.sub(r"(?<![\w'.-])[A-Za-z_][\w'₀-₉-]*(?! = )", lambda m: sub.get(m.group(0), m.group(0)), body)
    return new + " l =" + body


def convert(crate, function, data):
    folder = f"crates/{crate}/proofs/{function}"
    path = f"{folder}/Proof.antt"
    text = open(path).read()
    m = re.search(r"tie\.spec\b(.*)", text, re.S)
    if not m:
        return "no tie.spec"
    terms = split_terms(m.group(1))
    goals = [n[1] for n in data["needs"]]
    decls = declarations(text)
    turn = Turn(data)
    heads = [t for t in terms if re.match(r"(invariant|decreases)-", t)]
    rest = [t for t in terms if t not in heads]
    if len(rest) != len(goals):
        # fewer goals now: those that have a term of their own, by name
        by_name = dict(data["needs"])
        named = [t for t in rest if t in decls]
        needs = [re.match(r"tie\.Need-([\w-]+)", decls[t][0]).group(1) for t in named]
        if not all(n in by_name for n in needs) or not all(t in decls or t.endswith("search rules)") for t in rest):
            return f"{len(rest)} terms, {len(goals)} goals: {rest} {data['needs']}"
        rest, goals = named, [by_name[n] for n in needs]
    comment = []
    for line in text.split("\n"):
        if not line.startswith("--"):
            break
        comment.append(line)
    uses = [u for u in imports(text) if not re.search(r"\.Statement\.\{statement\}|\.Tie as tie", u)]
    own = f"Rattle.{crate}.proofs." + function.replace("/", ".")
    # what is neither an answer nor the proof itself stays as it is
    gone = set()
    for name, (sig, extra, clause, span) in decls.items():
        if name in terms or name.endswith(("-spec", "_spec")) or sig.startswith("tie."):
            gone.update(range(*span))
    lines = text.split("\n")
    kept = [line for i, line in enumerate(lines) if i not in gone and i >= len(comment) and not line.startswith("use ")]
    helpers = [h.rstrip() for h in re.split(r"\n\n+", "\n".join(kept).strip("\n")) if h.strip()]
    opened = [e for n, (_, extra, _, _) in decls.items() if n.endswith(("-spec", "_spec")) for e in extra]
    body = []
    for term, goal in zip(rest, goals):
        if term in decls:
            sig, extra, clause, span = decls[term]
            clause = re.sub(r"^" + re.escape(term) + r"((?: \w+)*) =", lambda k: goal + "".join(" " + w for w in k.group(1).split() if w != "κs") + " =", clause)
            body.append(f"pub {goal} : goal.{goal}\n" + "".join(e + "\n" for e in extra) + turn.term(clause))
        elif re.fullmatch(r"\(λ c(?: κs)?\. search rules\)", term) and not (opened and goal.startswith("returns")):
            continue
        else:
            k = re.fullmatch(r"\(λ (\w+)(?: κs)?\. (.*)\)", term, re.S)
            if not k:
                return f"term {term}"
            body.append(f"pub {goal} : goal.{goal}\n" + "".join(e + "\n" for e in opened) + f"{goal} {k.group(1)} = {turn.term(k.group(2))}")
    inv = []
    for t in heads:
        sig, extra, clause, span = decls[t]
        kind, loop = t.split("-", 1)
        new = f"{kind}-" + turn.loops[loop][0]
        inv.append(f"abbrev pub {new} : goal.{new}\n" + invariant(clause, new, *turn.loops[loop][1:]))
    os.remove(path)
    if inv:
        with open(f"{folder}/Invariants.antt", "w") as f:
            f.write("\n".join(comment + uses + [f"use {own}.Given as goal", ""]) + "\n" + "\n\n".join(inv) + "\n")
    if body or helpers:
        with open(f"{folder}/Answers.antt", "w") as f:
            f.write("\n".join(comment + uses + [f"use {own}.Goals as goal", ""]) + "\n" + "\n\n".join(helpers + body) + "\n")
    if not inv and not body and not helpers:
        try:
            os.rmdir(folder)
        except OSError:
            pass
    return "left: " + " ".join(sorted(set(turn.left))) if turn.left else ""


for crate in sys.argv[1:]:
    out = tempfile.mkdtemp()
    subprocess.run(["rt", "check", "--generated", out, "--old-names"], cwd=f"crates/{crate}", stdout=subprocess.DEVNULL, stderr=subprocess.DEVNULL)
    names = json.load(open(out + "/names.json"))
    for key, data in sorted(names.items()):
        m = re.fullmatch(r"Rattle-\w+-proofs\.(.*)\.Lts", key)
        if not m:
            continue
        function = m.group(1).replace(".", "/")
        if os.path.exists(f"crates/{crate}/proofs/{function}/Proof.antt"):
            said = convert(crate, function, data)
            if said:
                print(crate, function, said)
