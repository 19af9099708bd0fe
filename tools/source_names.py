#!/usr/bin/env python3
"""Gives names of the code their own spelling in answers and invariants: `if-not-is-ascii-digit` is `if-not-is_ascii_digit` today.

It also turns the first words of goals that Rattle spells in snake case today, as `overflow-add-x` and `returns-in-ok-x`.

usage: python3 tools/source_names.py      at the top, after tools/respell.py
"""
import glob
import os
import re

NAME = re.compile(r"(?<![\w'-])[A-Za-z][\w'+]*(?:[-+][\w'+]+)+")
IDENTIFIER = re.compile(r"\b[A-Za-z][A-Za-z0-9]*(?:_[A-Za-z0-9]+)+\b")
WORDS = [(re.compile(r"^((?:returns-|.*-requires-)?)in-(ok|err)-"), r"\1in_\2-"), (re.compile(r"^overflow-(add|sub|mul|cast|step)-"), r"overflow_\1-"), (re.compile(r"^(bounds|returns)-in-rest"), r"\1-in_default")]


def identifiers(crate):
    found = set()
    for path in glob.glob(f"{crate}/src/**/*.rt", recursive=True):
        found |= set(IDENTIFIER.findall(open(path, encoding="utf-8").read()))
    return sorted(found, key=len, reverse=True)


def respelled(name, known):
    for identifier in known:
        old = identifier.replace("_", "-")
        name = re.sub(r"(?<![A-Za-z0-9_])" + re.escape(old) + r"(?![A-Za-z0-9_])", identifier, name)
    for pattern, to in WORDS:
        name = pattern.sub(to, name)
    return name


def main():
    for crate in sorted(glob.glob("crates/*")):
        known = identifiers(crate)
        for path in glob.glob(f"{crate}/proofs/**/*.antt", recursive=True):
            if os.path.basename(path) not in ("Answers.antt", "Invariants.antt", "Proof.antt"):
                continue
            text = open(path, encoding="utf-8").read()
            std = set()
            for items in re.findall(r"use Rattle\.std[\w.]*\.\{([^}]*)\}", text):
                std |= {i.strip() for i in items.split(",")}
            out = NAME.sub(lambda m: m.group(0) if m.group(0) in std else respelled(m.group(0), known), text)
            if out != text:
                print(path)
                open(path, "w", encoding="utf-8").write(out)


if __name__ == "__main__":
    main()
