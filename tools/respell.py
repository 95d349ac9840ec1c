#!/usr/bin/env python3
"""Brings the names of this repository's definitions and lemmas to snake case, and those of facts to camel case.

usage: python3 tools/respell.py [--say]      at the top, once, after the kit's port.py; --say only prints what it would rename

A name that the kit's library spells with a dash, as add-zero, stays as it is, and so do the names that the check makes
(goals and steps), which answers and invariants are filed under. Text inside strings is left alone. A definition and a
function of the source may have one name, as value and gaps did before.
"""

import os
import re
import subprocess
import sys

KIT = os.path.dirname(subprocess.run(["rt", "doc"], capture_output=True, text=True).stdout.split()[0])
LETTER = r"[^\s(){}\[\];.,`\"@·◌]"
NAME = re.compile(rf"(?<!{LETTER})(?:{LETTER})+")
DECLARED = re.compile(
    r"^[ \t]*(?:pub |abbrev |unfoldable |data |record )*(?P<name>[^\s(){}\[\];.,:|]+)[ \t]*(?:\{[^}]*\}|\([^)]*\)|[ \t])*:(?:[ \t]|$)", re.M
)

# a record or a type with parameters
HEADED = re.compile(r"^[ \t]*(?:pub |abbrev )*(?:record|data) (?P<name>[^\s(){}\[\];.,:|]+)", re.M)


def files(top, ends):
    for folder, dirs, names in os.walk(os.path.join(top, "crates")):
        dirs[:] = sorted(d for d in dirs if d != "out")
        for n in sorted(names):
            if n.endswith(ends):
                yield os.path.join(folder, n)


def read(path):
    with open(path, encoding="utf-8") as f:
        return f.read()


def own_names(top):
    """The names with a dash that are declared in specs/ and proofs/, but for those of goals."""
    found = set()
    for path in files(top, ".antt"):
        for m in DECLARED.finditer(read(path)):
            line = m.group(0) + read(path)[m.end() :].split("\n", 1)[0]
            if "-" in m.group("name") and not re.search(r": *(goal|goals|given|answers)\.", line):
                found.add(m.group("name"))
        found |= {m.group("name") for m in HEADED.finditer(read(path)) if "-" in m.group("name")}
    return found


def kit_names():
    """Every name with a dash that the kit's library declares."""
    found = set()
    for lib in ("core", "std", "std_alloc", "std_collections", "std_heap", "std_io", "logic", "antt"):
        for folder, _, names in os.walk(os.path.join(KIT, "rattle", lib)):
            for n in names:
                if n.endswith(".antt"):
                    for m in DECLARED.finditer(read(os.path.join(folder, n))):
                        if "-" in m.group("name"):
                            found.add(m.group("name"))
    return found


# two that would fall together with words of the kit that stand beside them
OTHERWISE = {"bit-and": "bit_of_and", "bit-xor": "bit_of_xor"}


def spelled(name):
    if name in OTHERWISE:
        return OTHERWISE[name]
    if name[0].isupper():
        return "".join(p[:1].upper() + p[1:] for p in name.split("-"))
    return name.replace("-", "_")


def turned(text, names, only_quoted):
    def one(m):
        return names.get(m.group(0), m.group(0))

    if only_quoted:
        return re.sub(r"`[^`\n]+`", lambda m: NAME.sub(one, m.group(0)), text)
    pieces = re.split(r'("(?:[^"\\\n]|\\.)*")', text)
    return "".join(p if i % 2 else turned_code(p, one) for i, p in enumerate(pieces))


def turned_code(text, one):
    # a name after `goal.` or behind a step of a proof's record is the check's own
    return re.sub(
        rf"((?:\bgoal|\bgoals|\bgiven|\banswers|\bc|\bl|\bw)(?:\.(?:{LETTER})+)*\.)((?:{LETTER})+)|(?<!{LETTER})(?:{LETTER})+",
        lambda m: m.group(0) if m.group(1) else one(m),
        text,
    )


def main():
    top = os.getcwd()
    kit = kit_names()
    names = {n: spelled(n) for n in own_names(top) if n not in kit}
    whole = "\n".join(read(p) for p in files(top, (".antt", ".rt")))
    words = set(NAME.findall(whole)) | {w for t in NAME.findall(whole) for w in t.split(".")}
    for old, new in sorted(names.items()):
        print(f"{old} -> {new}{'   FALLS TOGETHER with a name that stands' if new in words else ''}")
    if "--say" in sys.argv:
        return
    for path in files(top, (".antt", ".rt", ".edit")):
        before = read(path)
        after = turned(before, names, False)
        if after != before:
            with open(path, "w", encoding="utf-8") as f:
                f.write(after)
    pages = [os.path.join(top, "README.md")] + [os.path.join(top, "docs", n) for n in sorted(os.listdir(os.path.join(top, "docs"))) if n.endswith(".md")]
    for path in pages:
        before = read(path)
        after = turned(before, names, True)
        if after != before:
            with open(path, "w", encoding="utf-8") as f:
                f.write(after)


main()
