"""Versions past 8191 of a living store, whose marks are those of versions before them, and the end of a specified store.

Images begin shortly before such a version. One life has 20,000 commits, since a record of 8,191 commits ago is in memory there. What has to be
answered is worked out beside each script: what is kept is the plain map of the updates up to a commit's point."""
import os
import random
import re
import subprocess
import sys
import tempfile

sys.path.append(os.path.join(os.path.dirname(os.path.abspath(__file__)), "..", "openings"))
from rows import SECONDS, STORE, Row, contents, first_other, spelled, told, whole
from samples import FIRST, MARKED, SECOND, Commit, Sample, marked
from slow_opening import LIVING_TEXT, SPECIFIED_TEXT, find

FILE = f"--file {STORE}"
MARKS = 8191
# how many commits a log commit may lie behind its checkpoint
WINDOW = MARKS - 2
# The long life takes some seconds.
LONG_SECONDS = 300
KINDS = ("commit", "commit log")


def begun(number, text):
    """A store whose last commit has this number, and copied its index: two keys, of which one was last updated in version 2."""
    commit = Commit(number, 3, 3, (2,), triples=((1, 0, 1), (2, 0, 2)))
    return Sample((commit,), ((FIRST, 1, 10), (SECOND, 2, 20)), text=text).image()


class Life:
    """Lines of session 0, with what they are answered."""

    def __init__(self, number, serial, pairs):
        self.number, self.serial, self.pairs = number, serial, dict(pairs)
        self.kept = number, serial, dict(pairs)
        self.lines, self.answers = [], []

    def say(self, line, *answers):
        self.lines.append(line)
        self.answers += answers

    def report(self, word, points=""):
        number, serial, pairs = self.kept
        return [f"{word} commit {number} points {serial}{points} pairs {len(pairs)}", *(f"pair {key} {pairs[key]}" for key in sorted(pairs))]

    def up(self, key, value):
        self.serial += 1
        self.pairs[key] = value
        self.say(f"0 up {key} {value}", f"0 #{self.serial} done")

    def add(self, key, number):
        self.serial += 1
        self.pairs[key] = self.pairs.get(key, 0) + number
        self.say(f"0 add {key} {number}", f"0 #{self.serial} = {self.pairs[key]}")

    def finish(self, points=""):
        """What the commit in hand keeps is what was there at its point."""
        self.say("k finish", f"k finished {self.number} points {self.kept[1]}{points}")

    def begin(self, kind):
        self.number += 1
        self.kept = self.number, self.serial, dict(self.pairs)
        self.say(f"k {kind}", f"k commit {self.number}")

    def commit(self, kind, before, behind, points=""):
        """A commit, with a call in prepare, which it keeps, and one behind the point, which it doesn't."""
        self.begin(kind)
        self.say("0 refresh", f"0 refresh prepare {self.number}")
        before()
        self.kept = self.number, self.serial, dict(self.pairs)
        self.say("k turn", f"k turn in-progress {self.number + 1}")
        self.say("0 refresh", f"0 refresh in-progress {self.number + 1}")
        behind()
        self.finish(points)


# ---- Lives over a file, which begin shortly before a version whose mark comes again -------------------------------------------------


def one_life(dice, number, serial, pairs, commits):
    """A life over a file: commits of both kinds that are drawn, and behind the last one an update that nothing keeps."""
    life = Life(number, serial, pairs)
    life.say("open", *life.report("open"))

    def update():
        life.up(dice.choice((1, 2, 3, 17, 524289)), dice.randrange(1000))

    for _ in range(commits):
        update()
        life.commit(dice.choice(KINDS), update, update)
    update()
    return life


def held(image):
    """What a slow program finds in an image: number, point and pairs."""
    found = find(image)
    whole_store = re.fullmatch(r"commit (\d+) tail \d+ points (\d+), .*, pairs(.*)", found[0])
    if len(found) > 1 or not whole_store:
        return found
    return int(whole_store[1]), int(whole_store[2]), {int(key): int(value) for key, value in (it.split("=") for it in whole_store[3].split())}


def other_of_lives(program, number, text, lives, commits):
    """What lives of so many commits answer, or leave, otherwise than they have to; none where they do so."""
    dice = random.Random(number)
    kept = number, 2, {1: 10, 2: 20}
    with tempfile.TemporaryDirectory() as folder:
        path = os.path.join(folder, STORE)
        with open(path, "wb") as file:
            file.write(begun(number, text))
        for at in range(lives):
            life = one_life(dice, *kept, commits)
            ran = subprocess.run([program, *FILE.split()], input=spelled(whole(life.lines)), cwd=folder, capture_output=True, timeout=SECONDS)
            wanted = spelled(whole(life.answers))
            if ran.stdout != wanted:
                return f"life {at + 1}: {first_other(ran.stdout, wanted)}"
            kept = life.kept
            if held(contents(path)) != kept:
                return f"life {at + 1}: the file holds {held(contents(path))}, and not {kept}"
    return None


# from which commit on, of which class, how many lives and how many commits of each
OVER_FILES = [(number, LIVING_TEXT, 4, 3) for number in (8184, 8187, 16375, 16378, 24570)] + [(8181, SPECIFIED_TEXT, 3, 3)]


def marked_lives(program):
    """How many there are, and what is otherwise."""
    others = [(number, other_of_lives(program, number, *rest)) for number, *rest in OVER_FILES]
    return len(OVER_FILES), [f"lives from commit {number} on: {other}" for number, other in others if other]


# ---- The last commit of each class, and the window of a checkpoint ------------------------------------------------------------------

LAST = """
    open         | open commit 8188 points 2 pairs 2
                 | pair 1 10
                 | pair 2 20
    0 up 2 21    | 0 #3 done
    k commit log | k commit 8189
    k finish     | k finished 8189 points 3
    0 up 2 22    | 0 #4 done
    k commit     | k commit 8190
    k finish     | k finished 8190 points 4
"""
ENDS = [
    told(
        "a specified store ends at version 8191",
        f"""{LAST}
        k commit     | k refused 6 VersionsSpent
        k commit log | k refused 6 VersionsSpent
        0 up 2 23    | 0 #5 done
        0 get 2      | 0 get 2 = 23
        k turn       | k turn rest 8191
        """,
        FILE,
        image=begun(8188, SPECIFIED_TEXT),
    ),
    told(
        "a living store goes on behind it",
        f"""{LAST}
        k commit     | k commit 8191
        k finish     | k finished 8191 points 4
        0 up 2 23    | 0 #5 done
        k commit log | k commit 8192
        k finish     | k finished 8192 points 5
        0 add 2 1    | 0 #6 = 24
        k turn       | k turn rest 8193
        """,
        FILE,
        image=begun(8188, LIVING_TEXT),
    ),
    told(
        "a log commit may lie 8,189 commits behind its checkpoint, and no more",
        f"""
        open         | open commit 8300 points 7 pairs 4
                     | pair 1 12
                     | pair 2 20
                     | pair 17 30
                     | pair 524289 40
        k commit log | k commit {112 + WINDOW}
        k finish     | k finished 8301 points 7
        k commit log | k refused 21 LostFull
        k turn       | k turn rest 8302
        k commit     | k commit 8302
        k finish     | k finished 8302 points 7
        k commit log | k commit 8303
        k finish     | k finished 8303 points 7
        """,
        FILE,
        image=MARKED.image(),
    ),
    Row("a slot further behind its checkpoint", "open\n", "refused 16 Damaged(Manifest, 0)\n", 3, tuple(FILE.split()), marked(8302, 112).image()),
]

# ---- One life of 20,000 commits -------------------------------------------------------------------------------------------------------

LIFE = 20_000
# 512 buckets, and memory for 16,384 records: more than sessions add in 8,191 commits here
SHAPE = "large 9 16 1024 512 2 0 4096"
# one of so many commits updates two old keys, which then rest for 8,191 commits
OLD_EACH = 8
# from this full commit on only log commits follow, as long as one may be begun
LAST_FULL = 9_024
FULL_EACH = 64
# session 1 sleeps behind the first commit, and wakes behind this one
WAKES = 16_402
OWN_KEY = 7  # of session 1
# commits with a call in prepare and one behind the point. At some of the first ones the marks begin again
SHOWN = {8190, 8191, 8192, 8199, 8207, 16381, 16382, 16383, 16390, *range(10_015, 16_300, 800)}
# a key that is updated here has left memory by the other commit, in which session 1 updates an old key of its bucket
COLD_AT, LATCHED_AT = 705, 19_502


def old_keys(number):
    """The keys whose turn it is in this version, 8,191 commits behind their last one."""
    age = number % MARKS
    return (100 + age // OLD_EACH, 2000 + age // OLD_EACH) if age % OLD_EACH == 1 else ()


COLD_KEY = 2**20 + old_keys(LATCHED_AT + 1)[0] % 512


def kind_of(number):
    is_full = number % FULL_EACH == 0 and not LAST_FULL < number <= LAST_FULL + WINDOW
    return "commit" if is_full or number == LAST_FULL + WINDOW + 1 else "commit log"


def point_of_the_other(number):
    """The point of session 1: its last update before it slept, or before this commit."""
    return 1 if number == 1 else 2 if number < WAKES else 3 if number <= LATCHED_AT else 4


def latched_commit(life):
    """Session 0 waits for a record that has left memory. So from prepare on it shares the latch of its bucket. Behind the point session 1 updates an
    old key of that bucket, whose record has the mark of its own version: it has to wait for the latch all the same."""
    number, serial, old = life.number + 1, life.serial + 1, old_keys(LATCHED_AT + 1)[0]
    life.say("1 wake", f"1 wake rest {number}")
    life.say(f"0 add {COLD_KEY} 5", f"0 #{serial} pending")
    life.begin(kind_of(number))
    life.say("0 refresh", f"0 refresh prepare {number}")
    life.say("1 refresh", f"1 refresh prepare {number}")
    life.say("k turn", f"k turn in-progress {number + 1}")
    life.say("1 refresh", f"1 refresh in-progress {number + 1}")
    life.say(f"1 add {old} 100", "1 #4 pending")
    life.say("1 poll", "1 poll left 1")
    life.say("0 refresh", f"0 refresh in-progress {number + 1}")
    life.serial, life.pairs[COLD_KEY] = serial, life.pairs[COLD_KEY] + 5
    life.say("0 poll", f"0 #{serial} = {life.pairs[COLD_KEY]}", "0 poll left 0")
    life.kept = number, serial, dict(life.pairs)
    life.pairs[old] += 100
    life.say("1 poll", f"1 #4 = {life.pairs[old]}", "1 poll left 0")
    life.finish(" 3")
    life.say("1 sleep", "1 sleep")


def shown_commit(life, number):
    """In prepare an old key is updated whose record has the mark of the next version, and yet is none of that. Behind the point another one is, and
    its record is none of the session's version."""
    first, second = old_keys(number + 1) or (1, 2)
    life.commit(kind_of(number), lambda: life.add(first, 1), lambda: life.add(second, 1), f" {point_of_the_other(number)}")


def other_session(life, number):
    """What session 1 does before this commit."""
    if number in (1, 2, WAKES):
        if number == WAKES:
            life.say("1 wake", f"1 wake rest {number}")
        serial = point_of_the_other(number)
        life.pairs[OWN_KEY] = serial
        life.say(f"1 up {OWN_KEY} {serial}", f"1 #{serial} done")
        if number > 1:
            life.say("1 sleep", "1 sleep")


def long_life():
    dice = random.Random(LIFE)
    life = Life(0, 0, {})
    life.say(SHAPE)
    for number in range(1, LIFE + 1):
        other_session(life, number)
        for key in (old_keys(number) or (dice.randrange(1, 6),)) + (COLD_KEY,) * (number == COLD_AT):
            life.add(key, number)
        if number == LAST_FULL + WINDOW + 1:
            life.say("k commit log", "k refused 21 LostFull")
        if number == LATCHED_AT:
            latched_commit(life)
        elif number in SHOWN:
            shown_commit(life, number)
        else:
            life.begin(kind_of(number))
            life.finish(f" {point_of_the_other(number)}")
    life.up(1, 0)
    life.say("crash", *life.report("crash", " 4"), "check recovered equals replay")
    name = "a life of 20,000 commits of both kinds, of which a session sleeps through 16,400"
    return Row(name, whole(life.lines), whole(life.answers), words=("--check",), seconds=LONG_SECONDS)


def marks():
    return [*ENDS, long_life()]
