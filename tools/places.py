#!/usr/bin/env python3
"""Lists the places of src/ that docs/DESIGN-PASS.md counts, by point: python3 tools/places.py [POINT]."""

import collections
import itertools
import pathlib
import re
import sys

FILES = sorted(pathlib.Path("crates").glob("*/src/**/*.rt"))


def lines(*patterns):
    """The lines of code that match one of the patterns."""
    found = []
    for path in FILES:
        for n, line in enumerate(path.read_text().split("\n"), 1):
            code = line.split("//")[0]
            if any(re.search(p, code) for p in patterns):
                found.append(f"{path}:{n}: {line.strip()}")
    return found


def functions():
    """Each function as (path, line, name, parameters, clauses, text without comments and clauses)."""
    for path in FILES:
        text = re.sub(r"//[^\n]*", "", path.read_text())
        for m in re.finditer(r"^( *)(?:pub(?:\(crate\))? )?fn (\w+)", text, re.M):
            end = re.compile(rf"^{m[1]}(?:\}}|    ensures .*;$|.*;$)|\{{\}}$", re.M).search(text, m.end())
            whole = text[m.start() : end.end() if end else len(text)]
            clause = re.compile(r"^ +(?:requires|ensures) (?:\w+ )?\{ (.*?) \}[;,]?$", re.M)
            params = re.search(r"\((.*?)\)(?: ->|\n| \{|;)", whole, re.S)
            yield (
                path,
                text.count("\n", 0, m.start()) + 1,
                m[2],
                re.findall(r"(\w+): ([^,\n]+)", params[1]) if params else [],
                clause.findall(whole),
                clause.sub("", whole),
            )


def twins():
    """Groups of functions that are one text once numbers, types and paths are blanked."""
    groups = collections.defaultdict(list)
    for path, n, name, _, _, text in functions():
        if "{" not in text:
            continue
        text = re.sub(r"\bpub(\(crate\))? ", "", text)
        text = re.sub(r"\b\d+\b", "0", text)
        text = re.sub(r"\b[A-Z]\w*", "T", text)
        text = re.sub(r"\bu\d+\b|\busize\b", "T", text)
        text = re.sub(r"<[^<>()]*>|\s+", "", text)
        groups[text].append(f"{path}:{n}: {name}")
    return [" = ".join(g) for g in groups.values() if len(g) > 1]


def repeated():
    """Requirements that stand on three or more functions of a crate, and parameters that travel together in three or more."""
    facts = collections.defaultdict(set)
    together = collections.defaultdict(set)
    for path, n, name, params, _, _ in functions():
        crate = path.parts[1]
        whole = path.read_text()
        at = whole.find(f"fn {name}")
        body = whole[at : whole.find("\n{", at) if whole.find("\n{", at) > 0 else None]
        for fact in re.findall(r"requires (?:\w+ )?\{ (.*?) \}$", body[: body.find("\n    {\n") if "\n    {\n" in body else None], re.M):
            facts[crate, re.sub(r"\b(self\.\w+\.[\w.]+|\w+\.(?:now|old|new|entry))\b", "_", fact)].add(f"{path}:{n}")
        for pair in itertools.combinations(sorted(set(p for p in params if p[0] != "self")), 2):
            together[crate, pair].add(f"{path}:{n}")
    found = [f"{crate}: {fact}: {len(at)}" for (crate, fact), at in sorted(facts.items()) if len(at) > 2]
    found += [
        f"{crate}: ({a[0]}: {a[1]}, {b[0]}: {b[1]}): {len(at)}" for (crate, (a, b)), at in sorted(together.items()) if len(at) > 2
    ]
    return found


POINTS = {
    1: lambda: lines(r"\bbool\b.*&\[|: bool,$", r"Result<bool", r"const [A-Z_]+: u8 = \d+;", r"No\(u8\)", r"-> \(.*Result<", r"fn number\(self\) -> u8", r"^\) -> \($"),
    2: twins,
    3: lambda: lines(r"\bwhile ", r"\bfor \w+ in \(?[\w.]+(\(\))?\.\.", r"[-+]= 1;"),
    4: lambda: lines(r"== other\.", r"> 255", r"\bfn (same|number|of|element|field_name|read_token|say|digits_number)\b", r"\) as u8"),
    5: repeated,
    6: lambda: lines(r"\[[\w:]+; \d+\][,;{]?", r"^\s+len: usize"),
    7: lambda: lines(r"\bdyn ", r"\bfn\(", r"match (asked|gift|kind|self\.kind)\b"),
}

for point in map(int, sys.argv[1:]) if sys.argv[1:] else POINTS:
    found = POINTS[point]()
    print(f"point {point}: {len(found)}")
    for place in found:
        print("   ", place)
