#!/usr/bin/env python3
"""Spells this repository's own definitions and lemmas as Rattle's library does: a fact or a type in camel case, all else in snake case.

usage: tools/snake_names.py [TOP]     rewrites the files below TOP (default: the checkout that holds this script) in place, after port.py
       tools/snake_names.py --list [TOP]   prints the table old, new, and writes nothing

Turned are the names with a dash that files of specs/ and proofs/ declare, and ghost members of src/. Not turned: functions of src/, strings,
comments but for code spans, and the labels that Rattle makes of a function's steps (behind a dot, or imported from its Goals and Given).
Names that would fall together with another are printed, and nothing is written.
"""

import collections
import os
import re
import sys

WORD = r'[^\s(){}\[\].;,@"«»|]+'
QUIET = re.compile(r'"(?:[^"\\\n]|\\.)*"|(?<![^\s(){}.;,@"«»])--[^\n]*')
RUST_QUIET = re.compile(r'//[^\n]*|[bc]?"(?:\\.|[^"\\])*"')
SPAN = re.compile(r"`[^`\n]*`")
# A name that would read badly, or meet another, by the rule alone.
BY_HAND = {}


def texts(top):
    for folder, dirs, files in os.walk(os.path.join(top, "crates")):
        dirs[:] = sorted(d for d in dirs if d not in ("out", ".git"))
        for f in sorted(files):
            if f.endswith((".antt", ".rt", ".edit")):
                yield os.path.join(folder, f)


def is_answers(path):
    return os.path.basename(path) in ("Answers.antt", "Invariants.antt", "Choices.antt", "Proof.antt")


def respelled(name):
    if name in BY_HAND:
        return BY_HAND[name]
    name = re.sub(r"-\+\+", "_append", name)
    name = re.sub(r"\+\+-", "append_", name)
    parts = name.split("-")
    if name[0].isupper():
        return "".join(p[0].upper() + p[1:] for p in parts if p)
    return "_".join(parts)


def declared(text):
    """The names that a text declares at the head of a line: of definitions, constructors, fields and module parameters."""
    found = set()
    for line in QUIET.sub("", text).split("\n"):
        m = re.match(rf"\s*(?:(?:pub|abbrev|unfoldable|data|record|ruleset)\s+)*({WORD})\s*(?:[({{].*)?\s:\s", line + " ")
        if m:
            found.add(m[1])
        m = re.match(rf"\s*(?:(?:pub|abbrev|unfoldable)\s+)*(?:data|record|ruleset)\s+({WORD})", line)
        if m:
            found.add(m[1])
    return found


def labels(text):
    """In a function's answers: the names that Rattle makes."""
    found = set(re.findall(rf"(?m)^\s*(?:abbrev )?(?:pub )?({WORD}) : (?:\([^\n]*→ )?(?:goal|need|given)\.", text))
    for items in re.findall(r"use [^\s{]+\.(?:Goals|Given|Needs)\.\{([^}]*)\}", text):
        found |= set(re.findall(WORD, items))
    return found


def turned(text, table, skip, behind_dots, quiet):
    def word(m):
        w = m[0]
        if w in skip or w not in table:
            return w
        if not behind_dots and text_at[0][m.start() - 1 : m.start()] == ".":
            return w
        return table[w]

    out, at = [], 0
    text_at = [""]

    def code(part):
        text_at[0] = part
        return re.sub(WORD, word, part)

    for m in quiet.finditer(text):
        out.append(code(text[at : m.start()]))
        kept = m[0]
        if not kept.lstrip("bc").startswith('"'):
            kept = SPAN.sub(lambda s: "`" + re.sub(WORD, lambda w: table.get(w[0], w[0]), s[0][1:-1]) + "`", kept)
        out.append(kept)
        at = m.end()
    out.append(code(text[at:]))
    return "".join(out)


def main(argv):
    listing = "--list" in argv
    argv = [a for a in argv if a != "--list"]
    top = argv[0] if argv else os.path.dirname(os.path.dirname(os.path.realpath(__file__)))
    read = {}
    for p in texts(top):
        with open(p, encoding="utf-8") as f:
            read[p] = f.read()

    names = collections.defaultdict(set)
    for p, t in read.items():
        if p.endswith(".antt"):
            own = labels(t) if is_answers(p) else set()
            for n in declared(t):
                if "-" in n and re.search(r"\w-|-\w", n) and n not in own:
                    names[n].add(p)
        elif p.endswith(".rt"):
            for n in re.findall(r"(?m)^\s*(?:pub )?ghost (?:invariant )?([\w-]+)\s*[:=]", t):
                if "-" in n:
                    names[n].add(p)
    table = {n: respelled(n) for n in names}

    bad = False
    back = collections.defaultdict(set)
    for old, new in table.items():
        back[new].add(old)
    for new, olds in back.items():
        if len(olds) > 1:
            print("fall together:", new, sorted(olds))
            bad = True
    words = {p: set(re.findall(WORD, t)) for p, t in read.items()}
    for old, new in sorted(table.items()):
        for p, ws in words.items():
            if old in ws and new in ws:
                print("look: in", os.path.relpath(p, top), old, "becomes", new, "which stands there too")
    if listing:
        for old, new in sorted(table.items()):
            print(old, new, sep="\t")
        return 0
    if bad:
        return 1

    for p, t in read.items():
        if p.endswith(".antt"):
            answers = is_answers(p)
            new = turned(t, table, labels(t) if answers else set(), not answers, QUIET)
        else:
            new = turned(t, table, set(), True, RUST_QUIET)
        if new != t:
            with open(p, "w", encoding="utf-8") as f:
                f.write(new)
    pages = [os.path.join(top, "README.md")]
    docs = os.path.join(top, "docs")
    pages += [os.path.join(docs, f) for f in sorted(os.listdir(docs)) if f.endswith(".md")] if os.path.isdir(docs) else []
    for p in pages:
        if os.path.isfile(p):
            with open(p, encoding="utf-8") as f:
                t = f.read()
            new = SPAN.sub(lambda s: "`" + re.sub(WORD, lambda w: table.get(w[0], w[0]), s[0][1:-1]) + "`", t)
            if new != t:
                with open(p, "w", encoding="utf-8") as f:
                    f.write(new)
    return 0


if __name__ == "__main__":
    sys.exit(main(sys.argv[1:]))
