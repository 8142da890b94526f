#!/usr/bin/env python3
"""Brings the names of definitions and lemmas to today's spelling: words in snake case, types in camel case.

usage: tools/respell.py [--look]      at the top of the repository, once, after the kit's port.py; --look only lists what would change

It changes names that specs/ and proofs/ declare, in specs/, proofs/, the clauses of src/ and must-fail edits. Names that the prover makes for a
function's goals, names of the library, and functions of src/ stay.
"""

import collections
import os
import re
import sys

CH = r"A-Za-z0-9_'₀-₉→"
NAME = rf"[A-Za-z_][{CH}]*(?:-[{CH}]+)*"
TOKEN = re.compile(rf"(?<![{CH}\-])(\.?)({NAME})")
CAMEL = re.compile(r"(?<=[a-z0-9])([A-Z][a-z]+)")


def odd(name):
    return "-" in name or re.match(r"[a-z][a-z0-9_']*[A-Z][a-z]", name)


def respelled(name):
    parts = name.split("-")
    if name[0].isupper():
        return "".join(p[0].upper() + p[1:] for p in parts)
    return "_".join(CAMEL.sub(lambda m: "_" + m.group(1).lower(), p) for p in parts)


def files():
    for crate in sorted(os.listdir("crates")):
        for folder, dirs, names in os.walk(os.path.join("crates", crate)):
            dirs[:] = sorted(d for d in dirs if d not in ("out", "data"))
            for name in sorted(names):
                if name.endswith((".antt", ".rt", ".edit")):
                    yield os.path.join(folder, name)


def of_goals(path):
    """Whether a file is in the folder of one function's proof."""
    parts = path.split(os.sep)
    return parts[2] == "proofs" and len(parts) > 4


def code(text):
    return re.sub(r"--(?=\s)[^\n]*", "", text)


def declared(text):
    found = set()
    for line in code(text).splitlines():
        head = re.match(rf"\s*(?:\|\s*)?(?:(?:abbrev|unfoldable|opaque|pub|private|mutual|let|where|in)\s+)*((?:{NAME}\s+)*{NAME})\s+:(?=\s|$)", line)
        if head:
            found.update(head.group(1).split())
        for kind in re.finditer(rf"\b(?:record|data|module)\s+({NAME})", line):
            found.add(kind.group(1))
        for bound in re.finditer(rf"[({{]((?:{NAME}\s+)*{NAME})\s+:\s", line):
            found.update(bound.group(1).split())
        for bound in re.finditer(rf"\blet\s+({NAME})\s+(?:[^=:]*\s)?[=:](?=\s|$)", line):
            found.add(bound.group(1))
        for bound in re.finditer(rf"λ\s+((?:{NAME}\s+)*{NAME})\.", line):
            found.update(bound.group(1).split())
        plain = re.match(rf"\s*(?:in\s+)?({NAME})\s+=\s", line)
        if plain:
            found.add(plain.group(1))
    return {n for n in found if odd(n)}


def imported(text, wanted):
    found = set()
    for m in re.finditer(r"use\s+([\w.+'-]+)\.\{([^}]*)\}", text):
        if wanted(m.group(1)):
            found.update(x.strip().split(" as ")[-1] for x in m.group(2).split(","))
    return found


def library(path):
    return path.startswith(("Rattle.std", "Rattle.core"))


def aliases(text):
    """Names that a file gives to imported ones of the repository."""
    found = set()
    for m in re.finditer(r"use\s+([\w.+'-]+)\.\{([^}]*)\}", text):
        found.update(a for a in re.findall(rf" as ({NAME})", m.group(2)) if odd(a) and not library(m.group(1)))
    return found


def main(argv):
    texts = {p: open(p, encoding="utf-8").read() for p in files()}
    shared, own = set(), {}
    functions = set()
    for p, t in texts.items():
        if p.endswith(".rt"):
            functions.update(n.replace("_", "-") for n in re.findall(r"\bfn\s+(\w+)", t))
            for m in re.finditer(rf"\bghost\s+({NAME})", t):
                if odd(m.group(1)):
                    shared.add(m.group(1))
        elif p.endswith(".antt"):
            names = declared(t)
            if of_goals(p):
                goals = set(re.findall(rf"goal\.({NAME})", t)) | imported(t, lambda m: m.endswith((".Goals", ".Given")))
                own[p] = names - goals
            else:
                shared |= names - imported(t, library)
    mapped = collections.defaultdict(set)
    for n in shared.union(*own.values()):
        mapped[respelled(n)].add(n)
    for new, olds in sorted(mapped.items()):
        if len(olds) > 1:
            print("fall together:", new, sorted(olds))
    plain = collections.defaultdict(set)
    for p, t in texts.items():
        for _, n in TOKEN.findall(code(t)):
            if not odd(n):
                plain[n].add(p)
    for new in sorted(mapped):
        if new in plain:
            print("stands already:", new, sorted(mapped[new]), sorted(plain[new])[:4])
    for n in sorted(shared & functions):
        print("a goal's name too:", n)
    changed = 0
    for p, t in texts.items():
        keep = imported(t, library)
        names = ((shared | own.get(p, set())) - keep) | aliases(t)
        goals = set()
        if of_goals(p):
            goals = set(re.findall(rf"goal\.({NAME})", t)) | imported(t, lambda m: m.endswith((".Goals", ".Given")))

        def turn(m):
            dot, n = m.groups()
            if n not in names or not odd(n) or n in goals:
                return m.group()
            if of_goals(p) and dot and n in functions:
                return m.group()
            return dot + respelled(n)

        new = "".join(
            re.sub(r"`[^`\n]*`", lambda m: TOKEN.sub(turn, m.group()), part) if i % 2 else TOKEN.sub(turn, part)
            for i, part in enumerate(re.split(r"((?:--|//)(?=\s)[^\n]*)", t))
        )
        if new != t:
            changed += 1
            if "--look" not in argv:
                with open(p, "w", encoding="utf-8") as f:
                    f.write(new)
    print(len(mapped), "names,", changed, "files")


main(sys.argv[1:])
