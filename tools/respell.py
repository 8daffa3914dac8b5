#!/usr/bin/env python3
"""Spells the definitions and lemmas of this repository in the way of today's Rattle.

usage: tools/respell.py [--check] [FOLDER]

Run it once, right after port.py, at the top of the repository or on FOLDER. A name that
specs/ or a lemma file of proofs/ defines is written in snake case (`line-told` becomes
`line_told`), and one that begins with a capital in upper camel case (`Row-of` becomes
`RowOf`). Every use of it follows, a name that `use .. as` gives too, in .antt and .rt files and in backticks in README.md and docs/.
Functions of src/, strings, inputs and outputs keep their names. Goals, which Rattle names,
keep theirs. It stops, and writes nothing, where two names would fall together.
With --check it only prints what it would rename.
"""

import collections
import glob
import os
import re
import sys

ANSWERS = {"Answers.antt", "Invariants.antt", "Choices.antt", "Proof.antt"}
DEFINED = re.compile(
    r"^\s*(?:abbrev |unfoldable )?(?:pub )?(?:record |data |ruleset )?"
    r"([^\s:(){}=,.λ]+)\s+(?:[({][^=]*[)}]\s*)?:\s",
    re.M,
)
ALIAS = re.compile(r"^\s*(?:ghost )?use .* as ([\w\-]+);?\s*$", re.M)
IDENT = r"[\w\-'·′⊎≡]"
STRING = re.compile(r'b?"(?:[^"\\]|\\.)*"')


def new_name(name):
    if name[0].isupper():
        return "".join(part[:1].upper() + part[1:] for part in name.split("-"))
    return name.replace("-", "_").replace("′", "'")


def paths(folder, pattern):
    return sorted(glob.glob(os.path.join(folder, pattern), recursive=True))


def defined_names(folder):
    """The names with a dash that specs/ and lemma files define, aliases among them, and where."""
    where = collections.defaultdict(set)
    for path in paths(folder, "crates/*/specs/**/*.antt") + paths(folder, "crates/*/proofs/**/*.antt"):
        if os.path.basename(path) in ANSWERS:
            continue
        text = open(path).read()
        for name in DEFINED.findall(text) + ALIAS.findall(text):
            if "-" in name or "′" in name:
                where[name].add(path)
    return where


def main():
    args = sys.argv[1:]
    check = "--check" in args
    args = [arg for arg in args if arg != "--check"]
    folder = args[0] if args else "."
    names = {name: new_name(name) for name in defined_names(folder)}
    if not names:
        print("respell: nothing to rename")
        return
    each = "|".join(re.escape(name) for name in sorted(names, key=len, reverse=True))
    uses = re.compile(rf"(?<!\bgoal\.)(?<!\bc\.)(?<!{IDENT})({each})(?!{IDENT})")
    texts = {}
    for path in paths(folder, "crates/**/*.antt") + paths(folder, "crates/**/*.rt"):
        texts[path] = open(path).read()
    docs = [os.path.join(folder, "README.md")] + paths(folder, "docs/*.md")
    docs = [path for path in docs if os.path.exists(path) and not path.endswith("PORT.md")]

    words = re.compile(rf"(?<!{IDENT})[^\W\d]{IDENT}*(?!{IDENT})")
    ghost_words = collections.defaultdict(set)
    for path, text in texts.items():
        if path.endswith(".antt"):
            for word in set(words.findall(text)):
                ghost_words[word].add(path)
    clashes = [
        (old, new, sorted(ghost_words[new]))
        for old, new in sorted(names.items())
        if new in ghost_words
    ]
    by_new = collections.defaultdict(set)
    for old, new in names.items():
        by_new[new].add(old)
    twice = {new: olds for new, olds in by_new.items() if len(olds) > 1}
    for old, new, where in clashes:
        print(f"respell: {old} would be {new}, which stands in {', '.join(where)}")
    for new, olds in twice.items():
        print(f"respell: {', '.join(sorted(olds))} would each be {new}")

    if check:
        for old, new in sorted(names.items()):
            print(f"{old}\t{new}")
        return
    if twice or clashes:
        sys.exit(1)

    def respelled(text):
        parts, at = [], 0
        for string in STRING.finditer(text):
            if "\n" in string[0]:
                continue
            parts.append(uses.sub(lambda m: names[m[1]], text[at : string.start()]))
            parts.append(string[0])
            at = string.end()
        parts.append(uses.sub(lambda m: names[m[1]], text[at:]))
        return "".join(parts)

    changed = 0
    for path, text in texts.items():
        new = respelled(text)
        if new != text:
            open(path, "w").write(new)
            changed += 1
    for path in docs:
        text = open(path).read()
        new = re.sub(r"`[^`\n]+`", lambda m: uses.sub(lambda n: names[n[1]], m[0]), text)
        if new != text:
            open(path, "w").write(new)
            changed += 1
    print(f"respell: {len(names)} names in {changed} files")


main()
