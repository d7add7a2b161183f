"""The program on threads over a store's file, which is opened again: its commit is the one that was reported, and each of its pairs is the sum of what
its sessions added up to their points. So a report that stands there whatever the threads did is another in one of these runs."""
import os

from alone import PROGRAM, need, run_of

SMALL, THREE, TIGHT = "shape 4 16 4 2 2 0 64", "shape 1 4 2 1 3 6 256", "shape 0 4 2 1 1 6 256"


def spread(sessions, count, keys, commits):
    """Each session adds to a key of its own and to shared ones in turn; between come commits of both kinds."""
    lines = []
    for n in range(count):
        lines += [f"{it} add {(100 + it) if n % 3 == 0 else n % keys} {n + it + 1}" for it in range(sessions)]
        if n % (count // commits) == count // commits - 1:
            lines += ["k commit log" if n % 2 else "k commit", "k finish"]
    return lines


# the line that makes the store, the others, and how many commits there are
SCRIPTS = [
    (SMALL, ["0 add 1 1"] * 3 + ["1 add 1 2"] * 2 + ["k commit", "k finish"], 1),
    (SMALL, ["0 add 1 1", "1 add 2 5"], 0),
    (SMALL, spread(2, 60, 5, 2), 2),
    (THREE, spread(3, 90, 20, 6), 6),
    (TIGHT, spread(1, 300, 7, 3), 3),
    # (its calls leave 195 overflow buckets to polls)
    ("large 11 16 4 2 3 196 256", spread(3, 200, 40, 4), 4),
]


def sums(lines, points):
    """The pairs that the first lines of each session make, up to its point."""
    left, pairs = list(points), {}
    for line in lines:
        who, *words = line.split()
        if who != "k" and left[int(who)] > 0:
            left[int(who)] -= 1
            key, more = map(int, words[1:])
            pairs[key] = pairs.get(key, 0) + more
    return pairs


def opened(path):
    """The number, the points and the pairs of the store in a file."""
    status, output, complaint = run_of(path, "open\n")
    need("the status of the file opened again", (status, complaint), (0, ""))
    first, *others = output.splitlines()
    words = first.split()
    at = words.index("pairs")
    need("what is told of the file opened again", (words[:2], words[3], len(others)), (["open", "commit"], "points", int(words[at + 1])))
    return int(words[2]), [int(it) for it in words[4:at]], {int(key): int(value) for _, key, value in map(str.split, others)}


def wiped(commits):
    """What is said where a store is made over one of so many commits."""
    if commits == 0:
        return ""
    return f"fkv: the file held a store of {commits} commit{'s' if commits > 1 else ''}, which the new store has wiped\n"


def reopened(folder):
    """How many runs there are, each over the file of the one before; it ends the program where one goes wrong."""
    path = os.path.join(os.path.realpath(folder), "threads")
    before = 0
    for shape, lines, commits in SCRIPTS:
        name = f"threads over a file, {shape}, {len(lines)} lines"
        count = len({it.split()[2] for it in lines if " add " in it})
        told = f"commit {commits}\npoints agree\nkeys agree {count}\n"
        need(name, run_of(path, "\n".join([shape, *lines, ""]), "--threads"), (0, told, wiped(before)))
        before = commits
        number, points, pairs = opened(path)
        need(f"{name}: the commit in the file", number, commits)
        need(f"{name}: the pairs in the file", pairs, sums(lines, points))
    return len(SCRIPTS)
