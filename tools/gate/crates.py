"""What crates.txt and the table of docs/GATE.md say of the crates, for the tools of this folder."""
import os
import re

TOP = os.path.realpath(f"{os.path.dirname(os.path.realpath(__file__))}/../..")
KINDS = ("check", "tests", "edits")
TABLE = "docs/GATE.md"


def read(path):
    with open(path, encoding="utf-8") as file:
        return file.read()


def crates_in(root):
    """What crates.txt says: each crate, and what it uses."""
    lines = [it.split("#")[0].partition(":") for it in read(f"{root}/crates.txt").splitlines() if it.split("#")[0].strip()]
    return {name.split()[0]: below.split() for name, _, below in lines}


def standing_on(crates, names):
    """These crates and all below them."""
    found, left = set(), list(names)
    while left:
        name = left.pop()
        if name in crates and name not in found:
            found.add(name)
            left += crates[name]
    return found


def above(crates, names):
    """The crates that use one of these, or use one that does, without these."""
    return {it for it in crates if it not in names and standing_on(crates, [it]) & set(names)}


def in_order(crates, names=None):
    """These crates, each after those that it uses, and else in the order of crates.txt; all of them if no names are given."""
    found = {}

    def add(name):
        for it in crates[name]:
            if it in crates and it not in found:
                add(it)
        found[name] = None

    for it in crates:
        if it not in found:
            add(it)
    return [it for it in found if names is None or it in names]


def kind_of(root, name):
    """What the nearest line '## KIND' above a crate's line in crates.txt says."""
    kind = ""
    for line in read(f"{root}/crates.txt").splitlines():
        kind = line[3:].strip() if line.startswith("## ") else kind
        if re.match(rf"{name}\b", line):
            return kind
    return kind


def sources(folder):
    """The files of a crate's src, specs and proofs, and its folders."""
    walked = [it for part in ("src", "specs", "proofs") for it in os.walk(f"{folder}/{part}")]
    return [f"{at}/{name}" for at, _, names in walked for name in names], [at for at, _, _ in walked]


def has(root, name, kind):
    """Whether the crate has such work at all."""
    if kind == "edits":
        return os.path.isdir(f"{root}/crates/{name}/must-fail")
    return kind == "check" or any("#[test]" in read(it) for it in sources(f"{root}/crates/{name}")[0] if it.endswith(".rt"))


def measured_last(root):
    """Processor minutes by crate and kind, as the table of docs/GATE.md has them."""
    rows = re.findall(r"(?m)^\| `(\w+)` \| ([\d.]+) \| ([\d.]+) \| ([\d.]+) \|", read(f"{root}/{TABLE}"))
    return {(name, kind): float(it) for name, *row in rows for kind, it in zip(KINDS, row) if has(root, name, kind)}


def total(minutes, names, *kinds):
    """The minutes of these crates, of these kinds of work."""
    return round(sum(minutes.get((name, kind), 0) for name in sorted(names) for kind in kinds), 1)


def longest(crates, minutes):
    """The longest chain of checks of these crates, lowest first, and its minutes: each check waits for the one before."""
    best = {}
    for it in in_order(crates):
        below = max((best[dep] for dep in crates[it] if dep in crates), key=lambda chain: chain[0], default=(0, ()))
        best[it] = below[0] + minutes.get((it, "check"), 0), (*below[1], it)
    length, chain = max(best.values(), key=lambda it: it[0], default=(0, ()))
    return chain, round(length, 1)
