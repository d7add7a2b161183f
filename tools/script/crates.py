"""What a crate stands on, by crates.txt, and how far rt has come with it."""
import hashlib
import os
import re
import subprocess
import sys

TOP = os.path.realpath(f"{os.path.dirname(os.path.realpath(__file__))}/../..")


def in_order(name):
    """The crates that this one stands on, with itself, in the order in which rt proves them."""
    with open(f"{TOP}/crates.txt", encoding="utf-8") as file:
        lines = [it.split("#")[0].partition(":") for it in file if it.split("#")[0].strip()]
    listed = {head.split()[0]: below.split() for head, _, below in lines}
    found = {}

    def add(its):
        for it in listed[its]:
            if it in listed and it not in found:
                add(it)
        found[its] = None

    add(name)
    return [*found]


def stamp_of(name, *tools):
    """A sum of the sources that this crate is built from, of these files, and of the toolchain's own name of itself."""
    files = [f"{at}/{it}" for crate in in_order(name) for at, _, names in os.walk(f"{TOP}/crates/{crate}/src") for it in names]
    made = hashlib.sha256(subprocess.run(["rt", "version"], capture_output=True, check=True).stdout)
    for path in [*sorted(files), f"{TOP}/crates.txt", *tools]:
        with open(path, "rb") as file:
            made.update(path.encode() + b"\0" + hashlib.sha256(file.read()).digest())
    return made.hexdigest()[:16]


def follow(lines, name, target):
    """Says on standard error at which crate below this one rt is, for `make TARGET`. Gives what rt has said since the last of them began."""
    order, said = in_order(name), []
    for line in lines:
        begun = re.match(r"rt: chose --jobs \d+ for (\w+)$", line)
        if begun and begun[1] in order:
            print(f"make {target}: {begun[1]}, {order.index(begun[1]) + 1} of {len(order)} crates", file=sys.stderr, flush=True)
            said = []
        said.append(line)
    return "".join(said)
