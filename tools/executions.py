#!/usr/bin/env python3
"""Writes the executions that the program `executions` judges, and what it should print.

    tools/executions.py litmus TESTS.json     published litmus tests with the literature's answer: every execution with the
                                              outcome asked for, whatever its sources and orders
    tools/executions.py reports FOLDER        reports of an independent model (NAME.in, NAME.out, NAME.lines): an execution
                                              for each line, with the sources of that line

The executions go to standard output, what the program should print to standard error. Nothing of the memory model is in
here: sources and orders are listed, not judged.
"""
import itertools
import json
import os
import sys

LOCATIONS = "xyzw"


def statements(text):
    """The statements by event number."""
    found = {}
    for t, line in enumerate(text.strip("\n").split("\n")):
        for p, statement in enumerate(line.split(";")):
            found[8 * t + p] = statement.split()
    return found


def location(words):
    return {"ld": lambda: words[2], "st": lambda: words[1], "xchg": lambda: words[2], "add": lambda: words[2]}.get(words[0], lambda: None)()


def reads(words):
    return words[0] in ("ld", "xchg", "add")


def writes(words):
    return words[0] in ("st", "xchg", "add")


def run(program, values):
    """The values written and the registers, from the values read."""
    written, registers = {32 + i: 0 for i in range(4)}, {}
    for e in sorted(program):
        words, t = program[e], e // 8
        operand = words[2] if words[0] == "st" else words[3] if words[0] in ("xchg", "add") else "0"
        value = registers.get((t, operand), 0) if operand.startswith("r") else int(operand)
        if words[0] == "add":
            value = (values[e] + value) % 256
        if writes(words):
            written[e] = value
        if reads(words):
            registers[(t, words[1])] = values[e]
    return written, registers


def valued(program, sources, pool):
    """The values read, for given sources: each is what its source writes."""
    readers = sorted(sources)
    for choice in itertools.product(pool, repeat=len(readers)):
        values = dict(zip(readers, choice))
        written, registers = run(program, values)
        if all(written[sources[r]] == values[r] for r in readers):
            yield values, written, registers


def shown(program, sources, values, orders):
    words = ["%d %d %d" % (r, sources[r], values[r]) for r in sorted(sources)]
    for i, letter in enumerate(LOCATIONS):
        words += [";"] + [str(w) for w in orders[i]]
    return "graph " + " ".join(words)


def writers(program, letter):
    return [e for e in sorted(program) if writes(program[e]) and location(program[e]) == letter]


def pool_of(program, cond):
    values = {0} | {v for v in cond.values()}
    for words in program.values():
        values |= {int(w) for w in words if w.isdigit()}
    return sorted(values | {(a + b) % 256 for a in values for b in values})


def asked_for(cond, registers, written, orders):
    for name, value in cond.items():
        if "." in name:
            t, r = name.split(".")
            held = registers.get((int(t), r), 0)
        else:
            held = written[orders[LOCATIONS.index(name)][-1]]
        if held != value:
            return False
    return True


def candidates(program, cond):
    readers = [e for e in sorted(program) if reads(program[e])]
    choices = [[w for w in [32 + LOCATIONS.index(location(program[r]))] + writers(program, location(program[r])) if w != r] for r in readers]
    pool = pool_of(program, cond)
    for picked in itertools.product(*choices):
        sources = dict(zip(readers, picked))
        for values, written, registers in valued(program, sources, pool):
            lasts = [[[32 + i] + list(order) for order in itertools.permutations(writers(program, letter))] for i, letter in enumerate(LOCATIONS)]
            for orders in itertools.product(*lasts):
                if asked_for(cond, registers, written, orders):
                    yield shown(program, sources, values, orders)


def litmus(path):
    for test in json.load(open(path)):
        program = statements(test["program"])
        print("test", test["name"])
        print("program", test["program"].strip("\n").replace("\n", "/"))
        for line in candidates(program, test["cond"]):
            print(line)
        print(test["name"], test.get("house", test["rc11"]), file=sys.stderr)


def number(name):
    if name in LOCATIONS:
        return 32 + LOCATIONS.index(name)
    t, p = name.split(".")
    return 8 * int(t) + int(p)


def order_to(before, outcome):
    if before is None:
        return []
    return ["rising" if before < outcome else "same" if before == outcome else "falling"]


def line_of(program, line, before):
    words = line.split()
    final = bytes.fromhex("".join(words[:5]))
    sources = {number(w.split("=")[0]): number(w.split("=")[1]) for w in words[5:-2]}
    values, written, _ = next(iter(valued(program, sources, sorted(set(final) | set(pool_of(program, {}))))))
    orders = []
    for i, letter in enumerate(LOCATIONS):
        order = writers(program, letter)
        ends = [w for w in order if written[w] == final[16 + i]]
        orders.append([32 + i] + ([w for w in order if w != ends[-1]] + [ends[-1]] if order else []))
    print(shown(program, sources, values, orders))
    print(" ".join(words[:5] + words[-2:] + order_to(before, final)), file=sys.stderr)
    return final


def reports(folder):
    for name in sorted(f[:-3] for f in os.listdir(folder) if f.endswith(".in")):
        text = open(os.path.join(folder, name + ".in"), "rb").read()
        lines = open(os.path.join(folder, name + ".out")).read().splitlines()
        if os.path.exists(os.path.join(folder, name + ".lines")):
            lines = [w[2:] for w in open(os.path.join(folder, name + ".lines")).read().splitlines()]
        lines = [w for w in lines if " hb " in w]
        if not lines:
            continue
        text = text.decode("ascii")
        print("program", text.strip("\n").replace("\n", "/"))
        before = None
        for line in lines:
            before = line_of(statements(text), line, before)


if __name__ == "__main__":
    {"litmus": litmus, "reports": reports}[sys.argv[1]](sys.argv[2])
