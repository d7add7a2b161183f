"""Room that calls of a living store leave to its polls: both sides of each bound, polls behind it, and commits that finish whatever waits.

A store of S sessions leaves 65 S overflow buckets, and 65 S S records at the log's end.
"""
import subprocess

from reserve import most_buckets, races_differ
from rows import SECONDS, Row, told, whole

SEVEN = [f"0 up {key} {10 * key} | 0 #{key} done" for key in range(1, 8)]
# Where pages have four records and memory has two of them, seven updates are done, and so many more wait for the keeper.
WAITING = range(8, 72)
# The third record's page becomes read-only, and the other session hasn't seen it.
FUZZY = ["0 up 1 10 | 0 #1 done", *(f"0 up {key} 0 | 0 #{key} done" for key in (2, 3, 4)), "k turn | k turn rest 1", "0 refresh | 0 refresh rest 1"]
# Calls are interleaved by so many seeds.
SEEDS = 3


def done(keys, serial):
    """Updates of these keys that are done, with serials from this one on."""
    return [f"0 up {key} {key} | 0 #{number} done" for number, key in enumerate(keys, serial)]


def refused(line, fault):
    return f"{line} | {line.split()[0]} refused {fault}"


def full(line):
    return refused(line, "4 IndexFull")


def spent(line):
    return refused(line, "5 LogFull")


def index_of(overflow):
    """One bucket, so many overflow buckets, and more room than a row writes."""
    return f"large 0 64 4 2 1 {overflow} 64"


def calls():
    """What a call of one session, or of two, comes to at a bound and before it."""
    yield "no overflow bucket for calls", [index_of(65), *SEVEN, full("0 up 8 8"), "0 up 7 1 | 0 #8 done", "0 get 8 | 0 get 8 absent"]
    yield "no overflow bucket at all", [index_of(0), *SEVEN, full("0 add 8 8"), "0 up 7 1 | 0 #8 done"]
    # Of the last one that calls may link, the other slots are for polls.
    yield "an overflow bucket for calls", [index_of(66), *SEVEN, *done([8], 8), full("0 up 9 9"), "0 up 8 1 | 0 #9 done", "0 add 7 1 | 0 #10 = 71"]
    yield "two overflow buckets for calls", [index_of(67), *SEVEN, *done(range(8, 16), 8), full("0 up 16 1"), "0 up 15 1 | 0 #16 done"]
    # The odd keys' bucket is full, and the other one has slots.
    odd = [*done(range(1, 15, 2), 1), full("0 up 15 1")]
    yield "slots in an own bucket behind the bound", ["large 1 64 4 2 1 65 64", *odd, *done(range(2, 16, 2), 8), full("0 up 16 1")]
    yield "a specified store's last overflow bucket", ["shape 0 64 4 2 1 1 64", *SEVEN, *done(range(8, 15), 8), full("0 up 15 1")]
    # Who would wait for a page has no slot to be sure of.
    yield "a key without an entry that would wait", ["large 4 4 2 1 1 65 64", *SEVEN, full("0 up 8 8"), "0 up 1 11 | 0 #8 done"]
    yield "one that waits before the bound", ["large 4 4 2 1 1 66 64", *SEVEN, "0 up 8 8 | 0 #8 pending", "0 up 1 11 | 0 #9 done"]
    waits = ["0 add 1 1 | 0 #5 pending", "k turn | k turn rest 1", "1 refresh | 1 refresh rest 1", "k turn | k turn rest 1", "0 poll | 0 #5 = 11", "| 0 poll left 0"]
    yield "a key with an entry that waits behind the bound", ["large 4 4 2 1 2 0 96", *FUZZY, *waits, "0 get 1 | 0 get 1 = 11"]
    yield "no record for calls", ["large 4 4 4 2 1 200 16", spent("0 up 1 1"), spent("0 del 1"), "0 get 1 | 0 get 1 absent"]
    # (no record has address 0)
    two = ["0 up 1 10 | 0 #1 done", "0 up 2 20 | 0 #2 done", spent("0 up 3 30"), "0 up 1 11 | 0 #3 done", "0 add 2 1 | 0 #4 = 21", "0 get 3 | 0 get 3 absent"]
    yield "two records for calls", ["large 4 4 4 2 1 200 17", *two]
    yield "and a page more", ["large 4 4 4 2 1 200 18", *done(range(1, 7), 1), spent("0 up 7 1")]
    yield "no record for calls of 32 sessions", ["large 4 1024 4 2 32 0 65", spent("31 up 1 1")]
    yield "and a page of them", ["large 4 1024 4 2 32 0 66", *done(range(1, 4), 1)]
    yield "an update that waits before the log's bound", ["large 4 4 2 1 2 200 67", *FUZZY, *waits]
    yield "one that would wait behind it", ["large 4 4 2 1 2 200 66", *FUZZY[:3], spent("0 up 4 0"), *FUZZY[4:], spent("0 add 1 1"), "1 refresh | 1 refresh rest 1"]


def homes():
    """Keys 8, 32776 and 65544 have one home, of which the first one makes an entry in the last overflow bucket for calls. The others take no slot."""
    lines = [index_of(66), *SEVEN, *done([8], 8), "0 up 32776 1 | 0 #9 done", "0 add 65544 1 | 0 #10 = 1", full("0 up 9 9"), "0 add 32776 1 | 0 #11 = 2"]
    yield "a home with an entry behind a link", lines
    # The log's two pages in memory have fifteen records.
    waits = ["0 up 32776 1 | 0 #16 pending", full("0 up 9 9"), "k commit | k commit 1", "k finish | 0 #16 done", "| k finished 1 points 16"]
    yield "and one that waits", ["large 0 8 2 1 1 66 64", *SEVEN, *done([8, *range(32769, 32776)], 8), *waits, "0 get 32776 | 0 get 32776 = 1"]


def polls():
    """64 updates that wait as calls have room, and are done behind their bound, where calls are refused. Commits go on."""
    script = [f"0 up {key} {key}" for key in range(1, 72)]
    answers = [f"0 #{key} {'pending' if key in WAITING else 'done'}" for key in range(1, 72)]
    committed = ["k commit 1", *(f"0 #{key} done" for key in WAITING), "k finished 1 points 71"]
    script += ["k commit", "k finish"]
    for name, sizes, line, answer in (
        ("overflow buckets", "1 4 2 1 1 66 64", "0 up 72 1", "0 refused 4 IndexFull"),
        ("records", "4 4 2 1 1 200 19", "0 up 1 1", "0 refused 5 LogFull"),
    ):
        lines = [f"large {sizes}", *script, line, "k commit", "k finish", "crash"]
        pairs = [f"pair {key} {key}" for key in range(1, 72)]
        wanted = [*answers, *committed, answer, "k commit 2", "k finished 2 points 71", "crash commit 2 points 71 pairs 71", *pairs]
        yield name, lines, wanted


def polled(sessions):
    return [f"{session} {word}" for word in ("refresh", "poll") for session in range(sessions)]


def filled(sessions, sizes, keys):
    """Adds of all sessions to ascending keys, up to a store that is full, with commits between. Then what waits is finished."""
    lines = [f"large {sizes}"]
    for key in range(keys):
        lines += [f"{session} add {key} 1" for session in range(sessions)]
        lines += [*polled(sessions), "k turn"] if key % 10 == 9 else []
        lines += ["k commit", "k finish"] if key % 30 == 29 else []
    lines += [*polled(sessions), "k turn"] * 8
    return whole([*lines, "k commit", "k finish", "crash"])


def fillings():
    for sessions in (1, 2, 4):
        yield f"an index of {sessions} sessions", sessions, filled(sessions, f"2 4 4 2 {sessions} {65 * sessions + 4} 65536", 80), b" refused 4 IndexFull\n"
        pages = 65 * sessions * sessions // 4 + 20
        yield f"a log of {sessions} sessions", sessions, filled(sessions, f"4 4 4 2 {sessions} {65 * sessions + 100} {pages}", 100), b" refused 5 LogFull\n"


def room():
    yield from (told(name, whole(lines)) for name, lines in (*calls(), *homes()))
    yield from (Row(f"polls take {name} that calls leave", whole(lines), whole(wanted)) for name, lines, wanted in polls())
    yield from map(most_buckets, (1, 2, 4, 32))


def difference(program, sessions, script, fault, seed):
    """What is otherwise in a run of calls that are interleaved; none where nothing is left waiting, and the last commit has all."""
    try:
        ran = subprocess.run([program, "--check", *seed], input=script.encode(), capture_output=True, timeout=4 * SECONDS)
    except subprocess.TimeoutExpired:
        return f"it has not ended after {4 * SECONDS} seconds"
    if ran.returncode:
        return f"status {ran.returncode}"
    before, _, report = ran.stdout.rpartition(b"\ncrash ")
    if fault not in before:
        return "nothing is refused"
    lines = before.decode().splitlines()
    for session in range(sessions):
        left = [line for line in lines if line.startswith(f"{session} poll left ")]
        if left[-1] != f"{session} poll left 0":
            return f"a request is left waiting: {left[-1]}"
    if not lines[-1].startswith("k finished ") or not report.endswith(b"\ncheck recovered equals replay\n"):
        return f"the last line is {lines[-1]}"
    return None


def fillings_differ(program):
    """How many runs of interleaved calls there are, and what is otherwise."""
    count, others = races_differ(program)
    for name, sessions, script, fault in fillings():
        for seed in [(), *(("--seed", str(seed)) for seed in range(SEEDS))]:
            count += 1
            other = difference(program, sessions, script, fault, seed)
            others += [f"{name} that gets full, {' '.join(seed)}: {other}"] if other else []
    return count, others
