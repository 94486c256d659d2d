#!/usr/bin/env python3
"""Brings the repository's own names to one spelling, in place: definitions, lemmas and what a `let` binds in snake case,
facts and types in camel case. Run once, at the top, right after the toolchain's own script for older repositories.

Names of goals, functions of src/, strings, inputs, outputs and edits keep their spelling.
usage: python3 tools/respell.py
"""
import glob
import re

# Names that would fall together with a function of the same file, and those that hold a word in camel case.
OTHERWISE = {
    "channel-count": "channel_word_count",
    "word-distance": "distance_of",
    "natAbs-add": "nat_abs_add",
    "natAbs-neg": "nat_abs_neg",
    "natAbs-sub": "nat_abs_sub",
}
# Names that a `ghost use` gives.
GIVEN = {"lesserOf": "lesser_of", "pairShape": "pair_shape", "realPoint": "real_point", "wholeShape": "whole_shape"}
DECLARED = re.compile(r"^ *(?:(?:abbrev|unfoldable|opaque|pub|record|data) +)*(?P<name>[^\s:(){},.=|λ∷\[\]]+)(?P<binders>.*) : (?P<type>.*)$")
BOUND = re.compile(r"\blet (?P<name>[^\s:(){},.=|λ∷\[\]]+) ")


def proof_files():
    return sorted(glob.glob("crates/*/specs/**/*.antt", recursive=True) + glob.glob("crates/*/proofs/**/*.antt", recursive=True))


def respelled(name):
    if name in OTHERWISE:
        return OTHERWISE[name]
    if name[0].isupper():
        return "".join(part[:1].upper() + part[1:] for part in name.split("-"))
    return name.replace("-", "_")


def own_names():
    names = dict(GIVEN)
    for path in proof_files():
        for line in open(path, encoding="utf-8"):
            if re.match(r"\s*(--|use |mod |pub use |pub mod )", line):
                continue
            names.update((m["name"], respelled(m["name"])) for m in BOUND.finditer(line) if "-" in m["name"])
            m = DECLARED.match(line)
            if not m or "-" not in m["name"] or "=" in m["binders"] or m["type"].startswith("goal."):
                continue
            # a line of a proof that cites a lemma of the library
            if m["binders"].startswith(" _"):
                continue
            names[m["name"]] = respelled(m["name"])
    return names


def main():
    names = own_names()
    goals = set()
    for path in proof_files():
        for line in open(path, encoding="utf-8"):
            m = DECLARED.match(line)
            if m and m["type"].startswith("goal."):
                goals.add(m["name"])
    both = sorted(goals & set(names))
    if both:
        raise SystemExit(f"names of goals, too: {' '.join(both)}")
    # behind a dot only where the dot follows the short name of a module
    word = r"(?:(?<![\w'.\-])|(?<=\bread\.))(" + "|".join(re.escape(n) for n in sorted(names, key=len, reverse=True)) + r")(?![\w'\-])"
    token = re.compile(word)
    quoted = re.compile("`([^`\n]+)`")
    for path in proof_files() + sorted(glob.glob("crates/*/src/**/*.rt", recursive=True)):
        text = open(path, encoding="utf-8").read()
        turned = token.sub(lambda m: names[m[1]], text)
        if turned != text:
            open(path, "w", encoding="utf-8").write(turned)
    for path in ["README.md", *sorted(glob.glob("docs/*.md"))]:
        text = open(path, encoding="utf-8").read()
        turned = quoted.sub(lambda m: "`" + token.sub(lambda n: names[n[1]], m[1]) + "`", text)
        if turned != text:
            open(path, "w", encoding="utf-8").write(turned)
    for name in sorted(names):
        print(name, names[name])


if __name__ == "__main__":
    main()
