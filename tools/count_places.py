#!/usr/bin/env python3
"""Lists the places in src/ that docs/DESIGN-PASS.md speaks of, point by point, in the working tree or in a commit.

    python3 tools/count_places.py [COMMIT]

What it prints are places to look at: the page says which of them are old forms.
"""
import collections
import itertools
import re
import subprocess
import sys


def files(commit):
    if commit:
        names = subprocess.run(["git", "ls-tree", "-r", "--name-only", commit, "crates"], capture_output=True, text=True, check=True).stdout.split()
        show = lambda n: subprocess.run(["git", "show", f"{commit}:{n}"], capture_output=True, text=True, check=True).stdout
    else:
        names = subprocess.run(["git", "ls-files", "-co", "--exclude-standard", "crates"], capture_output=True, text=True, check=True).stdout.split()
        show = lambda n: open(n).read()
    return {n: show(n) for n in sorted(names) if re.match(r"crates/\w+/src/.*\.rt$", n)}


LINES = {
    "1 enums": r"^ *(pub(\([a-z]+\))? )?enum ",
    "1 flags: fields and parameters": r"^ *(pub )?\w+: bool,|[(,] ?\w+: bool[,)]",
    "1 success told by a bool": r"&mut self.*\) -> bool",
    "1 numbers for kinds and refusals": r"fn \w+\(.*\) -> u(8|32|64)$|(kind|tag): u8,|^ +(Refusal|Status)\(u8",
    "3 loops with an index": r"for .* in .*(\d|\w)\.\.(=|\w)|for \(\w+, .*\) in .*enumerate\(\)|^ *while ",
    "4 conversions by hand": r"fn (number|is_same|same|wanted|as_p3|count_as_p3|last_wanted|style|failure|read_protocol|read_style|is_digit|is_hex|value|hex_digit|figures|\w+_byte|\w+_letter|\w+_mark)\(",
    "6 arrays with a length beside": r"^ *(pub )?\w+: \[\w+; \w+\],",
    "6 memory filled, its length answered": r"&mut \[u8(; ?\w+)?\],?( out)?$|(out|memory|buffer): &mut \[u8",
    "7 pairs by which step is run": r"fn \w*(send|reset|credit|debit)\w*[(<]",
}


def clauses(texts):
    seen = collections.defaultdict(set)
    for name, text in texts.items():
        fn = None
        for line in text.split("\n"):
            if m := re.search(r"fn (\w+)", line):
                fn = (name, m[1])
            if fn and (m := re.match(r"\s+ensures (?:\w+ )?\{ (.*) \};?$", line)):
                seen[m[1]].add(fn)
    return {c: s for c, s in seen.items() if len(s) >= 3}


def parameters(texts):
    groups = collections.defaultdict(set)
    for name, text in texts.items():
        if "tests" in name or "damaged" in name:
            continue
        for m in re.finditer(r"fn (\w+)(?:<[^>]*>)?\(([^)]*)\)", text):
            words = sorted({p.split(":")[0].replace("mut ", "").strip(" _\n") for p in m[2].split(",") if ":" in p})
            for n in range(3, len(words) + 1):
                for group in itertools.combinations(words, n):
                    groups[group].add((name, m[1]))
    often = {g: s for g, s in groups.items() if len(s) >= 3}
    return {g: s for g, s in often.items() if not any(set(g) < set(h) and s <= t for h, t in often.items())}


def main():
    commit = sys.argv[1] if len(sys.argv) > 1 else None
    texts = files(commit)
    for title, pattern in LINES.items():
        found = [(n, i, l.strip()) for n, t in texts.items() for i, l in enumerate(t.split("\n"), 1)
                 if re.search(pattern, l) and not l.strip().startswith("//")]
        print(f"\n== {title}: {len(found)}")
        for n, i, l in found:
            print(f"  {n}:{i}: {l[:110]}")
    found = clauses(texts)
    print(f"\n== 5 clauses that stand in three or more functions: {len(found)}")
    for c, s in sorted(found.items(), key=lambda x: -len(x[1])):
        print(f"  {len(s)} functions: {c[:110]}")
    found = parameters(texts)
    print(f"\n== 5 parameters (three or more) that three or more functions share: {len(found)}")
    for g, s in sorted(found.items(), key=lambda x: -len(x[1])):
        print(f"  {len(s)} functions: {', '.join(g)}")
    for kind in ("Answers", "Invariants"):
        out = subprocess.run(["git", "ls-tree", "-r", "--name-only", commit or "HEAD", "crates"], capture_output=True, text=True).stdout
        print(f"\n== 8 {kind}.antt: {sum(n.endswith(kind + '.antt') for n in out.split())}")


main()
