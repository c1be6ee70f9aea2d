#!/usr/bin/env python3
"""Respells the definitions and lemmas of this repository in snake case: `howMany` becomes `how_many`, `tail-length` becomes `tail_length`.

usage: tools/snake_names.py       at the top of a checkout whose files have the newer Rattle's spelling

Only names that a file of specs/ or proofs/ declares are turned, and their fields and constructors; types, modules, goals (names that Rattle
makes) and the functions of src/ keep theirs. Where two names would fall together one of them gets another name. Files are rewritten in place.
"""

import collections
import glob
import re
import sys

# Lemmas and fields that would get the name of a definition.
APART = {
    "after-kind": "left_after_kind",
    "all-below": "all_below_lem",
    "first-broken": "first_broken_lem",
    "frame-fields": "frame_fields_lem",
    "hear-by": "hears_by",
    "in-turn": "moves_in_turn",
    "line-fault": "line_fault_lem",
    "may-by": "may_by_lem",
    "may-move": "may_move_now",
    "next-by": "next_by_lem",
    "number-count": "count_of_numbers",
    "order-fields": "order_fields_lem",
    "placed-from": "placed_from_lem",
    "post-at": "post_at_lem",
    "post-code": "post_code_lem",
    "post-count": "count_of_posts",
    "rest-after": "rest_after_lem",
}

TOP = re.compile(r"^((?:pub |abbrev |unfoldable |ruleset )*)(data |record )?([^\s(){}:;,.=λ◌]+)((?:\s*\([^()]*(?:\([^()]*\)[^()]*)*\)|\s*\{[^{}]*\})*)\s*:\s([^\n]*)", re.M)
INNER = re.compile(r"^\s+(?:pub )?([A-Za-z][^\s(){}:;,.=λ◌]*)\s*:\s", re.M)
TOKEN = re.compile(r"\.?[^\s(){}\[\].;,«»\"`]+")
STRING = re.compile(r'b?"(?:\\.|[^"\\])*"', re.S)


def plain(text):
    return re.sub(r"--[^\n]*", "", text)


def read(path):
    with open(path, encoding="utf-8") as it:
        return it.read()


def snake(name):
    name = re.sub(r"(?<=[a-z0-9])([A-Z])", lambda m: "_" + m[1].lower(), name)
    return name.replace("-", "_")


def turns(name):
    """Whether a name is spelled otherwise than in snake case, and isn't that of a type."""
    return name[0].islower() and snake(name) != name


def declared(paths):
    """The names that are turned: those of definitions and lemmas, and those of fields and constructors."""
    names, fields, goals = set(), set(), set()
    for path in paths:
        text = plain(read(path))
        answers = re.match(r"(?:.*/)?crates/\w+/proofs/.+/", path)
        tops = set()
        for m in TOP.finditer(text):
            tops.add(m[3])
            if m[5].startswith("goal."):
                goals.add(m[3])
            else:
                names.add(m[3])
        if not answers:
            fields |= {m[1] for m in INNER.finditer(text) if m[1] not in tops}
    return names - goals, fields - goals


def main():
    antt = sorted(glob.glob("crates/*/specs/**/*.antt", recursive=True) + glob.glob("crates/*/proofs/**/*.antt", recursive=True))
    source = sorted(glob.glob("crates/*/src/**/*.rt", recursive=True))
    if not antt:
        print("snake_names: no crates here", file=sys.stderr)
        return 2
    names, fields = declared(antt)
    to = {n: APART.get(n, snake(n)) for n in names | fields if turns(n)}
    met = collections.defaultdict(set)
    for n in names | fields:
        met[to.get(n, n)].add(n)
    for n, olds in sorted(met.items()):
        if len(olds) > 1:
            print(f"falls together: {n}: {', '.join(sorted(olds))}")

    def turn(m):
        word = m[0]
        if word.startswith("."):
            return "." + to[word[1:]] if word[1:] in fields and word[1:] in to else word
        return to.get(word, word)

    def turn_text(text):
        out, at = [], 0
        for s in STRING.finditer(text):
            out += [TOKEN.sub(turn, text[at : s.start()]), s[0]]
            at = s.end()
        return "".join(out) + TOKEN.sub(turn, text[at:])

    changed = 0
    for path in antt + source:
        text = read(path)
        new = turn_text(text) if path.endswith(".rt") else TOKEN.sub(turn, text)
        if new != text:
            with open(path, "w", encoding="utf-8") as it:
                it.write(new)
            changed += 1
    print(f"{len(to)} names turned in {changed} files")
    return 0


if __name__ == "__main__":
    sys.exit(main())
