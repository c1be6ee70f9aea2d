#!/usr/bin/env python3
"""Lists the places in src/ that docs/DESIGN-PASS.md counts, by its points: tools/places.py [-l] [CHECKOUT]. With -l each line."""
import re
import subprocess
import sys
from collections import Counter
from itertools import combinations
from pathlib import Path

lines_wanted = "-l" in sys.argv
rest = [a for a in sys.argv[1:] if a != "-l"]
top = Path(rest[0] if rest else ".")
sources = sorted(top.glob("crates/*/src/**/*.rt"))
answers = sorted(top.glob("crates/*/proofs/**/Answers.antt"))

PATTERNS = {
    "1 enums": r"^(pub )?enum ",
    "1 flags in structs": r"^    (pub )?[a-z_]+: bool,",
    "1 numbers for kinds": r"^ +\[?[0-9]+\]? =>|=> [0-9]+,$|\bKIND\b|\b[A-Z_]*KIND[A-Z_]*\b|% 3\b|first_byte\(|^ +\[[0-9A-Z]+, \.\.\] =>",
    "3 loops over a range, or by hand": r"^ *('[a-z]+: )?(for .* in .*\.\.|while )",
    "4 conversions and printing": r"\b(from_be_bytes|to_be_bytes)\b|fn (number|from_bytes|to_bytes|nothing|over|word|count|word_bytes|count_bytes|classify|byte_of|print\w*|push_byte|digit)\(|^impl.* (fmt::Display|From<.*>|TryFrom<.*>|Default) for",
    "6 arrays, buffers, vectors": r"\[[^\]]*; ?[0-9_]+\]|Vec<",
    "7 switches": r"match (order|told|what|\*what|command(\.order)?|said|reply|bytes|unit\.bytes|rest|act\.\w+)\b",
}


def show(name, found):
    print(f"{name}: {len(found)}")
    if lines_wanted:
        for f in found:
            print("   ", f)


def grep(pattern, files):
    found = []
    for path in files:
        for number, line in enumerate(path.read_text().splitlines(), 1):
            if re.search(pattern, line) and not line.strip().startswith(("//", "ghost use", "use ", "pub use")):
                found.append(f"{path.relative_to(top)}:{number}: {line.strip()}")
    return found


def functions():
    for path in sources:
        text = path.read_text()
        for match in re.finditer(r"^ *(?:pub(?:\(crate\))? )?fn (\w+)[^(]*\(([^{]*?)\n? *\)(?: ->|\n|  *\{)([^{]*?\n)?", text, re.M):
            yield path, match.group(1), match.group(2)


for name, pattern in PATTERNS.items():
    if name.startswith("3"):
        names = Counter(f"{n}" for p, n, _ in functions())
        show("2 names of more than one function", [f"{n}: {c}" for n, c in sorted(names.items()) if c > 1 and n not in ("fmt", "from", "main", "run")])
    show(name, grep(pattern, sources))

together = Counter()
for path, name, parameters in functions():
    typed = sorted(set(re.findall(r"(\w+): (&?(?:mut )?[\w\[\]<>']+)", parameters)))
    for pair in combinations(typed, 2):
        together[pair] += 1
show("5 parameters together in three functions or more", [f"{a[0]}: {a[1]}, {b[0]}: {b[1]} in {n}" for (a, b), n in sorted(together.items()) if n >= 3])
facts = Counter()
for path in sources:
    for line in path.read_text().splitlines():
        m = re.match(r" +requires(?: \w+)? \{ (.*) \}$", line)
        if m:
            for fact in re.split(r" × ", m.group(1)):
                facts[(path.parts[-3], re.sub(r"[()]", "", fact).replace(".old", "").replace(".now", ""))] += 1
show("5 facts required in three functions or more of a crate", [f"{c}: {f} in {n}" for (c, f), n in sorted(facts.items()) if n >= 3])
show("5 facts joined in one requires", grep(r"requires.* × ", sources))
show("8 answers", grep(r"^pub [\w+-]+ : goal\.", answers))
print("8 lines of Answers.antt:", sum(len(p.read_text().splitlines()) for p in answers))
print("8 lines of lemmas:", sum(len(p.read_text().splitlines()) for p in top.glob("crates/*/proofs/*.antt")))
