"""Scripts whose sessions and keeper run on threads. What they write is the same for every schedule."""
from complaints import USAGE
from files import wiped
from rows import STORE, Row, whole
from samples import ONE as OLDER
from shapes import LARGE_ONE, LARGE_TWO

ONE, SMALL = "shape 4 16 4 2 1 0 64", "shape 4 16 4 2 2 0 64"
THREE, TIGHT = "shape 1 4 2 1 3 6 256", "shape 0 4 2 1 1 6 256"


def agree(number, keys):
    return whole([f"commit {number}", "points agree", f"keys agree {keys}"])


def mixed():
    """Three sessions: keys of their own, sums that all add to, and one that none is compared of."""
    lines = []
    for n in range(40):
        for session in range(3):
            own = 10 * session + n % 10
            lines.append(f"{session} {('up', 'add', 'max')[n % 3]} {100 + own} {n + session}")
            lines.append(f"{session} add {n % 4} {n}")
            lines.append(f"{session} {'get' if n % 2 else 'add'} {100 + own}{'' if n % 2 else ' 1'}")
        if n % 10 == 9:
            lines += ["k commit log" if n % 20 == 9 else "k commit", "k finish"]
        if n == 20:
            lines += ["0 up 9 1", "1 del 9", "2 max 9 7", "1 poll", "2 refresh"]
    return lines


def full():
    """One session, which meets 64 pending requests, and more lines than the ring holds."""
    return [f"0 add {n % 7} {n}" for n in range(300)] + ["k commit", "k finish", "k finish"]


def filling(sizes):
    """Four sessions add to ascending keys of a living store until it is full. What was accepted never waits for room, so each commit ends."""
    lines = [f"large {sizes}"]
    for key in range(60):
        lines += [f"{session} add {key} 1" for session in range(4)]
        lines += ["k commit", "k finish"] if key % 20 == 19 else []
    return lines


RUNS = [
    ("a sum of two sessions", [SMALL, *["0 add 1 1"] * 3, *["1 add 1 2"] * 2, "k commit", "k finish"], agree(1, 1)),
    ("one session, which reads what it wrote", [ONE, "0 up 1 10", "0 get 1", "k commit", "k finish"], agree(1, 1)),
    ("a sum that begins anew behind a delete", [ONE, *["0 add 5 7"] * 2, "0 del 5", "0 get 5", "0 add 5 1", "k commit", "k finish"], agree(1, 1)),
    ("no commit keeps nothing", [SMALL, "0 add 1 1", "1 up 2 5"], agree(0, 2)),
    ("three sessions, and commits of both kinds", [THREE, *mixed()], agree(4, 34)),
    ("more pending requests than fit", [TIGHT, *full()], agree(1, 7)),
    ("sums past the most are not compared", [SMALL, "0 add 1 18446744073709551614", "1 add 1 1", "k commit log", "k finish"], agree(1, 0)),
    ("a session that the shape hasn't", [SMALL, "9 up 1 1", "0 up 2 2", "k commit", "k finish"], agree(1, 2)),
    ("a living store", [LARGE_TWO, "0 up 1 1", "1 up 2 2", "k commit", "k finish"], agree(1, 2)),
    ("a living store of small sizes", ["large 4 16 4 2 2 0 64", "0 up 1 1", "1 max 2 2", "1 min 2 1", "k commit", "k finish"], agree(1, 2)),
    ("a living store's index that gets full", filling("1 4 4 2 4 264 65536"), agree(3, 60)),
    ("a living store's log that gets full", filling("4 4 4 2 4 400 280"), agree(3, 60)),
    ("merges of one session", [LARGE_ONE, "0 min 1 9", "0 sub 1 2", "0 and 1 6", "0 or 2 1", "0 first 3 5", "0 keep 4", "k commit", "k finish"], agree(1, 4)),
    ("merges of two sessions are compared of no key", [LARGE_TWO, "0 min 1 9", "1 min 1 5", "0 add 2 1", "1 sub 2 1", "0 keep 3", "k commit", "k finish"], agree(1, 1)),
]

FAULTS = [
    ([SMALL, "0 sleep"], "2 Mode"),
    ([SMALL, "0 up 1 1", "k turn"], "3 Mode"),
    ([SMALL, "crash"], "2 Mode"),
    ([SMALL, "fail 1"], "2 Mode"),
    ([SMALL, "0 keep 1"], "2 Word"),
    ([SMALL, "k commit", "k finish", "0 min 1 2"], "4 Word"),
    ([LARGE_ONE, "0 min 1"], "2 Count"),
    (["open"], "1 Mode"),
    ([SMALL, "# a comment", "", "k commit", "0 get 1", "k commit"], "4 Mode"),
    ([SMALL, "k commit", "0 get 1"], "2 Mode"),
    ([SMALL, "k commit", "0 get"], "3 Count"),
    ([SMALL, "k commit", "k commit", "0 get"], "2 Mode"),
    ([SMALL, "crash 0"], "2 Number"),
]

FILE = ("--threads", "--file", STORE)
TEXT = b"not a store\n"

TOGETHER = "--seed and --threads don't go together; those that --threads goes with are --check, --torn B and --file PATH"
WORDS = [
    (("--threads", "--seed", "1"), "options seed and threads\n", TOGETHER),
    (("--seed=1", "--threads", "--check"), "options seed and threads\n", TOGETHER),
    (("--threads", "--threads"), "options\n", "--threads stands twice"),
    (("--threads=1",), "options\n", "--threads takes no value"),
    (("--threads", "x"), "options\n", 'the word "x" is unknown'),
    (("--threads", "--file"), "options\n", "--file needs a value"),
    (("--thread",), "options\n", 'the word "--thread" is unknown'),
]


def threads():
    rows = [Row(name, whole(lines), wanted, words=("--threads",)) for name, lines, wanted in RUNS]
    rows += [Row(f"{name}, with words that change nothing", whole(lines), wanted, words=("--torn", "9", "--threads", "--check")) for name, lines, wanted in RUNS[:1]]
    rows += [Row(f"threads, line {wanted}", whole(lines), f"script line {wanted}\n", 2, ("--threads",)) for lines, wanted in FAULTS]
    rows += [Row("threads, an empty script", "", "", words=("--threads",))]
    rows += [Row("threads, sizes of no shape", "shape 4 6 4 2 1 0 64\n", "refused 1 BadShape\n", 2, ("--threads",))]
    rows += [Row("threads, sizes of a living store alone", "shape 11 16 4 2 2 0 64\n", "refused 1 BadShape\n", 2, ("--threads",))]
    rows += [Row(f"{name}, in a file", whole(lines), wanted, words=FILE) for name, lines, wanted in RUNS]
    rows += [Row("threads, a faulty line makes no file", whole([SMALL, "crash"]), "script line 2 Mode\n", 2, FILE, left=None)]
    rows += [Row("threads, sizes of no shape make no file", "shape 4 6 4 2 1 0 64\n", "refused 1 BadShape\n", 2, FILE, left=None)]
    foreign = f'fkv: the file "{STORE}" holds something that is no store, and is left as it is\n'
    rows += [Row("threads over a foreign file", whole([SMALL]), "refused 14 Device\n", 3, FILE, image=TEXT, left=TEXT, complaint=foreign)]
    wipes = wiped("1 commit")
    rows += [Row(f"{name}, over an older store", whole(lines), wanted, words=FILE, image=OLDER.image(), complaint=wipes) for name, lines, wanted in RUNS[:1]]
    return rows + [Row(f"threads, {' '.join(words)}", whole([SMALL]), wanted, 2, words, complaint=f"fkv: {why}\n{USAGE}") for words, wanted, why in WORDS]
