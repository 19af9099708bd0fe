#!/usr/bin/env python3
"""Brings the repository's own definitions and lemmas to the spelling of today's Rattle: facts and types in camel case, all else in snake case.

usage: python3 tools/respell.py [--list]     at the top, right after port.py; --list only prints what would be renamed

Names that `let` binds are brought along, and so are names in backticks in docs/ and the README. Goals that Rattle names
(`loop-x-preserved`, `returns-in_ok-f`) and names of the library keep their dashes. A name that would fall together with one that
stands, or with one that was respelled before it, is reported and left.
"""
import glob
import re
import sys

NAME = r"[A-Za-z][\w'₀-₉-]*"
TOKEN = re.compile(r"(?<![\w'₀-₉-])" + NAME)
HEAD = re.compile(r"^\s*(?:(?:abbrev|unfoldable|pub|data|record)\s+)*(" + NAME + r")(?=[^=]*\s:\s)(.*)$")
LOCAL = re.compile(r"\blet\s+(" + NAME + r")\s*[:=]")
SPOKEN = {"No-thin-air": "HasNoThinAir", "Sc-order": "IsScOrdered"}  # variants of the code have the plain words
GOAL = re.compile(r":\s*goal\.")


def files(*patterns):
    return sorted(p for pattern in patterns for p in glob.glob(pattern, recursive=True))


def defined(paths):
    """Each own name with a dash: True if it is a fact or a type."""
    names = {}
    for path in paths:
        for line in open(path, encoding="utf-8"):
            if line.lstrip().startswith("--") or line.startswith("use "):
                continue
            head = HEAD.match(line)
            if head and "-" in head.group(1) and not GOAL.search(line):
                rest = head.group(2)
                kind = re.match(r"^\s*(?:pub\s+)?(?:data|record)\s", line) or re.search(r"Type 0\s*(?:where\s*)?$", rest)
                names[head.group(1)] = bool(kind) or names.get(head.group(1), False)
            for local in LOCAL.findall(line):
                if "-" in local:
                    names.setdefault(local, False)
    return names


def library(paths):
    """Names that come from std, and names of goals."""
    found = set()
    for path in paths:
        text = open(path, encoding="utf-8").read()
        for items in re.findall(r"use (?:Rattle\.std|borrow|mathlib|lib|native|Prim)[\w.]*\.\{([^}]*)\}", text):
            found.update(i.strip().split(" as ")[-1] for i in items.split(","))
        found.update(re.findall(r"^(?:abbrev )?pub (" + NAME + r") : goal\.", text, re.M))
    return found


def respelled(name, fact):
    words = name.split("-")
    if name in SPOKEN:
        return SPOKEN[name]
    if fact:
        return "".join(w[:1].upper() + w[1:] for w in words)
    if name[0].isupper():
        return name
    return "_".join(words)


def main(argv):
    proofs = files("crates/*/specs/**/*.antt", "crates/*/proofs/**/*.antt")
    sources = files("crates/*/src/**/*.rt")
    pages = files("docs/*.md", "README.md")
    names = defined(proofs)
    kept = library(proofs + sources)
    # A function of the code may have the name of a definition.
    every = {t for p in proofs for t in TOKEN.findall(re.sub(r"use [\w.+]+", "", open(p, encoding="utf-8").read()))}
    new, taken = {}, {}
    for name, fact in sorted(names.items()):
        to = respelled(name, fact)
        if name in kept or to == name:
            print(f"kept: {name}")
        elif to in every or to in taken:
            print(f"falls together: {name} -> {to}")
        else:
            new[name] = to
            taken[to] = name
    for name, to in new.items():
        print(f"{name} -> {to}")
    if "--list" in argv:
        return 0
    for path in proofs + sources:
        text = open(path, encoding="utf-8").read()
        out = TOKEN.sub(lambda m: new.get(m.group(0), m.group(0)), text)
        if out != text:
            open(path, "w", encoding="utf-8").write(out)
    for path in pages:
        text = open(path, encoding="utf-8").read()
        out = re.sub(r"`[^`\n]*`", lambda q: TOKEN.sub(lambda m: new.get(m.group(0), m.group(0)), q.group(0)), text)
        if out != text:
            open(path, "w", encoding="utf-8").write(out)
    return 0


if __name__ == "__main__":
    raise SystemExit(main(sys.argv[1:]))
