"""Long scripts, line by line: sessions take turns, and each thousand lines end with a commit, one that copies the index or one that
doesn't, in turn."""
import itertools

KEYS = 997
EACH = 1000
# Rows are of one session and of as many as a store can have, and of so many lines.
SESSIONS, COUNTS = (1, 32), (16_384, 32_768, 65_536)
# An index of 1,024 buckets, and memory for 4,096 records, four times the keys, or for 128 of them.
LARGE, SMALL = "shape 10 64 64 32 {} 64 4096", "shape 10 16 8 4 {} 64 16384"


def updates(sessions):
    """An update of a key, an addition to it, a read of the key that was updated the longest time ago, and then a refresh, a turn and a poll."""
    for count in itertools.count():
        session, key = count % sessions, count % KEYS
        yield f"{session} up {key} {count}"
        yield f"{session} add {key} 1"
        yield f"{session} get {(key + 1) % KEYS}"
        yield f"{session} refresh"
        yield "k turn"
        yield f"{session} poll"


def reads(sessions):
    """First all keys are updated, and then those that have left memory are read: a read, a turn and a poll."""
    for key in range(KEYS):
        yield f"{key % sessions} up {key} {key}"
        yield f"{key % sessions} refresh"
        yield "k turn"
        yield f"{key % sessions} poll"
    for count in itertools.count():
        session = count % sessions
        yield f"{session} get {count % (KEYS - 200)}"
        yield "k turn"
        yield f"{session} poll"


def script(shape, work, last, sessions, count):
    """So many lines of this work, where each thousand ends with a commit and the last ones."""
    yield shape.format(sessions)
    doing, commits = work(sessions), itertools.cycle(["k commit", "k commit log"])
    for number in range(2, count + 1):
        left = -number % EACH
        if left == len(last):
            yield next(commits)
        elif left < len(last):
            yield last[len(last) - 1 - left]
        else:
            yield next(doing)


# Each with its shape, its work, and how a thousand lines end.
SCRIPTS = {
    "a commit each 1,000 lines": (LARGE, updates, ["k finish"]),
    "a commit and a crash each 1,000 lines": (LARGE, updates, ["k finish", "crash"]),
    "reads that go pending": (SMALL, reads, ["k finish"]),
}
