#!/usr/bin/env python3
"""Brings the names of this repository's own definitions and lemmas to one spelling: snake case for words, camel case for types.

usage: tools/respell.py [--list]      at the top of the repository; with --list it only prints what it would do

Own names are those that a file of specs/ or proofs/ declares: a signature, a field, a record or a data type. Names of goals, which the
check makes, and names of the library keep their spelling. Functions of src/, strings and programs' inputs and outputs are not touched:
in a .rt file only clauses, ghost items and ghost imports are.
"""

import os
import re
import sys

WORD = r"[^\s(){}\[\];,.:\"@|λ⌜⌝]+"
SIGNATURE = re.compile(r"^\s*(?:abbrev |unfoldable )?(?:pub )?(" + WORD + r")\s+:(?:\s|$)")
PARTS = re.compile(r"(" + WORD + r")")

# A name that a library has too, in the spelling that it would get: it gets another word.
TAKEN = {
    "bit-or": "bit_of_or",
    "bit-and": "bit_of_and",
}


def files(root, ending):
    for folder, dirs, names in os.walk(os.path.join(root, "crates")):
        dirs[:] = sorted(d for d in dirs if d not in ("out", "must-fail"))
        for name in sorted(names):
            if name.endswith(ending):
                yield os.path.join(folder, name)


def read(path):
    with open(path, encoding="utf-8") as f:
        return f.read()


def snake(name):
    if name in TAKEN:
        return TAKEN[name]
    name = name.replace("-", "_")
    if re.match(r"[a-z]", name):
        name = re.sub(r"(?<=[a-z0-9])([A-Z])", lambda m: "_" + m.group(1).lower(), name)
    return name


def own_names(root):
    found = set()
    for path in files(root, ".antt"):
        for line in read(path).split("\n"):
            m = SIGNATURE.match(line)
            if m and not re.search(r":\s*goal\.", line):
                found.add(m.group(1))
    return {n: snake(n) for n in found if snake(n) != n and ("-" in n or re.match(r"[a-z]+[a-z0-9]*[A-Z]", n))}


def respell_words(text, names):
    return PARTS.sub(lambda m: names.get(m.group(1), m.group(1)), text)


def respell_proof(text, names):
    out = []
    for line in text.split("\n"):
        code, mark, comment = line.partition("-- ")
        # a library's module keeps its names, also in an import
        if code.startswith("use ") and not re.match(r"use Rattle\.(?!std|core)", code):
            out.append(line)
            continue
        out.append(respell_words(code, names) + mark + comment)
    return "\n".join(out)


GHOST = re.compile(r"^\s*(?:pub )?(?:ghost |requires|ensures|law )")


def respell_source(text, names):
    out, deep = [], 0
    for line in text.split("\n"):
        inside = deep > 0
        if inside or (GHOST.match(line) and "{" in line):
            deep += line.count("{") - line.count("}")
            deep = max(deep, 0)
            out.append(respell_words(line, names))
        else:
            out.append(line)
    return "\n".join(out)


def main():
    root = os.getcwd()
    names = own_names(root)
    used = set()
    for path in list(files(root, ".antt")) + list(files(root, ".rt")):
        used |= set(PARTS.findall(read(path)))
    for old, new in sorted(names.items()):
        note = "  (look: this word stands already)" if new in used else ""
        if "--list" in sys.argv or note:
            print(f"{old} -> {new}{note}")
    if "--list" in sys.argv:
        return
    for ending, turn in ((".antt", respell_proof), (".rt", respell_source)):
        for path in files(root, ending):
            old = read(path)
            new = turn(old, names)
            if new != old:
                with open(path, "w", encoding="utf-8") as f:
                    f.write(new)


main()
