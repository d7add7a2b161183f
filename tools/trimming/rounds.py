"""Rounds of updates over a store whose log is given back at its front, and over one that keeps it."""
import os
import re
import subprocess
import sys

HERE = os.path.dirname(os.path.realpath(__file__))
C = [os.environ.get("CC", "cc"), "-std=c11", "-O2", "-Wall", "-Wextra", "-pedantic", "-Werror"]
KEYS = 65536
LIVE_BYTES = KEYS * 24
MEASURED = re.compile(
    r"^calls (\d+) ns (\d+) long (\d+) own (\d+) by-keeper (\d+) left-out (\d+) thefts (\d+) longest-us (\d+)\n"
    r"commits (\d+) begin (\d+) tail (\d+) swept (\d+) kept (\d+) disk (\d+) keeper-ns (\d+) untrimmed (-?\d+)\n"
    r"opened .*\nsum (\d+) agrees\n$"
)
NAMES = ("calls", "ns", "long", "own", "by_keeper", "left_out", "thefts", "longest_us", "commits", "begin", "tail", "swept", "kept", "disk", "keeper_ns", "untrimmed", "sum")


def built(library, room, headers=f"{HERE}/../../face"):
    """The program, over this library."""
    program = f"{room}/trimming"
    subprocess.run([*C, f"-I{headers}", f"{HERE}/trimming.c", library, "-pthread", "-o", program], check=True)
    return program


def play(program, room, seconds, *keeps):
    """A round over a new store. What the program has told, by name."""
    store = f"{room}/round"
    ran = subprocess.run([program, store, str(seconds), *keeps], stdin=subprocess.DEVNULL, capture_output=True, text=True)
    found = MEASURED.match(ran.stdout)
    if ran.returncode or not found:
        sys.exit(f"a round has failed: {ran.stdout}{ran.stderr}status {ran.returncode}")
    os.remove(store)
    its = dict(zip(NAMES, map(int, found.groups())))
    if its["sum"] != its["calls"]:
        sys.exit(f"{its['calls']} adds were made, and {its['sum']} are there")
    its["rate"] = its["calls"] / its["ns"] * 1e9
    return its


def play_both(program, room, seconds, count):
    """So many rounds of either kind, by turns: those that give the front back, and those that keep it."""
    rounds = [(play(program, room, seconds), play(program, room, seconds, "keeps")) for _ in range(count)]
    return [it[0] for it in rounds], [it[1] for it in rounds]


def rate_of(rounds):
    return sum(its["rate"] for its in rounds) / len(rounds)


def processors_of(rounds):
    """How much of a processor the keeper's thread took."""
    return sum(its["keeper_ns"] / its["ns"] for its in rounds) / len(rounds)
