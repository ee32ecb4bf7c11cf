#!/usr/bin/env python3
"""Brings the names of this repository's definitions and lemmas to today's spelling.

usage: python3 tools/respell_names.py        at the top of the repository, once, after the kit's port.py

Types and facts are in camel case (`ReadAs`), everything else is in snake case (`fed_byte`). In the name of a lemma a dash
stays where it joins the names of two functions (`length-listed`). Names that Rattle itself makes of the code, as those of
goals, are left alone, and so is all code: functions of src/, strings, inputs and outputs. Names that would fall together
stop the script before it writes anything.
"""

import glob
import os
import re
import sys

WORD = r"[A-Za-zℕ][A-Za-z0-9_'ℕ]*(?:-[A-Za-z0-9_'ℕ]+)*"
TOKEN = re.compile(r"(?<![A-Za-z0-9_'ℕ-])" + WORD)
DECLARED = re.compile(r"^\s*(?:(?:abbrev|unfoldable|pub)\s+)*(" + WORD + r")\s+:\s")
TYPE = re.compile(r"^\s*(?:pub\s+)?(?:record|data)\s+(" + WORD + r")")
GOAL = re.compile(r"^\s*(?:(?:abbrev|pub)\s+)*(" + WORD + r")\s+:\s+goal\.")
CAMEL_ALIAS = re.compile(r"\bas ([a-z]+[A-Z][A-Za-z]*)\b")
# Names that would otherwise meet a function of the code or a word of the library.
APART = {"words-stand": "words_stand_lem", "bit-or": "bit-bit_or"}
LIST_WORDS = "length map take drop append reverse replicate sum last".split()


def read(path):
    with open(path, encoding="utf-8") as f:
        return f.read()


def snake(name):
    return name.replace("-", "_")


def camel(name):
    return "".join(part[:1].upper() + part[1:] for part in re.split("[-_]", name))


def in_function(path):
    """Whether a file belongs to the proof of one function."""
    return os.path.basename(path) in ("Answers.antt", "Invariants.antt", "Proof.antt")


def declared(paths):
    """The names that the files declare: of definitions, of lemmas, and of types."""
    definitions, lemmas, types = set(), set(), set()
    for path in paths:
        in_specs = "/specs/" in path
        for line in read(path).split("\n"):
            if line.lstrip().startswith("--") or (in_function(path) and GOAL.match(line)):
                continue
            made = TYPE.match(line)
            if made:
                types.add(made.group(1))
                continue
            made = DECLARED.match(line)
            if not made:
                continue
            name = made.group(1)
            if re.search(r"(^|→ |: )Type \d*$", line.rstrip()) and name[0].isupper():
                types.add(name)
            elif in_specs or re.match(r"\s*(abbrev|unfoldable)\s", line):
                definitions.add(name)
            else:
                lemmas.add(name)
    return definitions, lemmas, types


def lemma_name(name, functions):
    parts = name.split("-")
    for i in range(1, len(parts)):
        left, right = "_".join(parts[:i]), "_".join(parts[i:])
        if left in functions and right in functions:
            return left + "-" + right
    return snake(name)


def renaming(paths):
    definitions, lemmas, types = declared(paths)
    functions = {snake(n) for n in definitions} | set(LIST_WORDS)
    new = {}
    for name in lemmas:
        new[name] = lemma_name(name, functions) if "-" in name else name
    for name in definitions:
        new[name] = snake(name)
    for name in types:
        new[name] = camel(name) if "-" in name else name
    new.update({a: b for a, b in APART.items() if a in new})
    return {a: b for a, b in new.items() if a != b}


def fall_together(new, paths, sources):
    """New names that one file already has for something else."""
    found = []
    for path in paths + sources:
        words = set(TOKEN.findall(read(path)))
        for old in words & set(new):
            if new[old] in words and path.endswith(".antt"):
                found.append(f"{path}: {old} -> {new[old]}")
            rivals = [w for w in words if w != old and new.get(w) == new[old]]
            if rivals:
                found.append(f"{path}: {old} and {rivals[0]} -> {new[old]}")
    return found


def turn(text, new):
    return TOKEN.sub(lambda m: new.get(m.group(0), m.group(0)), text)


def turn_goals_apart(text, new):
    """The file of one function: a goal keeps the name that Rattle gave it."""
    goals = {m.group(1) for m in map(GOAL.match, text.split("\n")) if m}
    return turn(text, {a: b for a, b in new.items() if a not in goals})


def turn_source(text, new):
    """Only `ghost use` items, ghost members and clauses; and aliases there in snake case."""
    lines, depth, inside = [], 0, False
    aliases = {}
    for name in CAMEL_ALIAS.findall("\n".join(l for l in text.split("\n") if l.lstrip().startswith("ghost use"))):
        aliases[name] = re.sub(r"([A-Z])", lambda m: "_" + m.group(1).lower(), name)
    for line in text.split("\n"):
        begins = re.match(r"\s*(pub )?(ghost|requires|ensures)\b", line)
        if begins or inside:
            depth += line.count("{") - line.count("}")
            inside = depth > 0
            line = turn(line, {**new, **aliases})
            if not inside:
                depth = 0
        lines.append(line)
    return "\n".join(lines)


def turn_page(text, new):
    return re.sub(r"`[^`\n]+`", lambda m: turn(m.group(0), new), text)


def main():
    files = sorted(glob.glob("crates/*/specs/**/*.antt", recursive=True) + glob.glob("crates/*/proofs/**/*.antt", recursive=True))
    sources = sorted(glob.glob("crates/*/src/**/*.rt", recursive=True))
    pages = sorted(glob.glob("docs/*.md") + ["README.md"])
    new = renaming(files)
    bad = fall_together(new, files, sources)
    if bad:
        print("\n".join(bad), file=sys.stderr)
        print(f"respell: {len(bad)} names fall together; nothing is written", file=sys.stderr)
        return 1
    for path in files + sources + pages:
        old = read(path)
        by = turn_page if path.endswith(".md") else turn_source if path.endswith(".rt") else turn_goals_apart if in_function(path) else turn
        text = by(old, new)
        if text != old:
            with open(path, "w", encoding="utf-8") as f:
                f.write(text)
    for name in sorted(new):
        print(f"{name} -> {new[name]}")
    return 0


sys.exit(main())
