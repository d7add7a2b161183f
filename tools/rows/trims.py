"""Scripts that trim: `k commit trim`, and turns behind it that sweep the log's front.

A store of one session is modelled here: its records with their addresses, which of them a sweep has passed, and where the log begins. So each line of its lives
is known. Of stores of several sessions, whose calls are interleaved or wait for records on the device, the pairs are known, and that the begin never falls."""
import copy
import os
import random
import re
import subprocess
import sys
import tempfile
from dataclasses import dataclass

sys.path.append(os.path.join(os.path.dirname(os.path.abspath(__file__)), "..", "openings"))
from crashes import AGREES, TORN
from rows import SECONDS, STORE, Row, contents, first_other, whole
from slow_opening import find, newest, shape_of, slot_of
from threads import agree

# of one session, and with more room in memory and for keys than a row takes
SIZES, WIDE = "4 64 8 4 1 0 64", "8 1024 8 4 1 0 64"
# what a turn of a sweep meets, and wants, at most
RECORDS, WANTED = 256, 16
FULL, LOG, TRIM = "commit", "commit log", "commit trim"
KINDS = (FULL, LOG, TRIM)


@dataclass
class Record:
    version: int
    key: int
    value: int  # none of a delete


class Store:
    """Lines of one session over a living store, with what they are answered. No two keys have one home."""

    def __init__(self, sizes=SIZES):
        self.lines, self.answers = [f"large {sizes}"], []
        self.records, self.newest, self.pairs = [], {}, {}
        # where the log begins, the first address of the checkpoint, and from which record on some may change in place
        self.begin, self.first, self.fixed = 1, 1, 1
        self.number, self.serial, self.version = 0, 0, 1
        self.kept, self.kept_end, self.hand = (0, 0, {}), 1, None
        # behind each commit: how many lines there were, where its log begins, and what it keeps
        self.cuts = []
        self.set_sweep(1, 1)
        self.sweeps, self.recovered, self.tickets = False, 1, 0

    def say(self, line, *answers):
        self.lines.append(line)
        self.answers += answers

    def end(self):
        return len(self.records) + 1

    # ---- sessions

    def is_gone(self, key):
        """Its record lies on the device, below the begin: a read of it waits twice."""
        return self.newest.get(key, self.begin) < min(self.begin, self.recovered)

    def waits(self, key):
        """It has a record, on the device."""
        return self.newest.get(key, self.recovered) < self.recovered

    def write(self, key, value):
        at = self.newest.get(key, 0)
        if at >= self.fixed and self.records[at - 1].version == self.version:
            self.records[at - 1].value = value
        else:
            self.records.append(Record(self.version, key, value))
            self.newest[key] = self.end() - 1
        if value is None:
            self.pairs.pop(key, None)
        else:
            self.pairs[key] = value

    def up(self, key, value):
        self.serial += 1
        self.write(key, value)
        self.say(f"0 up {key} {value}", f"0 #{self.serial} done")

    def delete(self, key):
        self.serial += 1
        self.write(key, None)
        self.say(f"0 del {key}", f"0 #{self.serial} done")

    def make(self, line, key, value):
        """A value that goes by the one before: the session waits for that, if it is on the device."""
        self.serial += 1
        answer = f"0 #{self.serial} " + ("absent" if value is None else f"= {value}")
        if self.waits(key):
            self.say(line, f"0 #{self.serial} pending")
            self.turn()
            self.write(key, value)
            self.say("0 poll", answer, "0 poll left 0")
        else:
            self.write(key, value)
            self.say(line, answer)

    def keep(self, *keys):
        for key in keys:
            self.make(f"0 keep {key}", key, self.pairs.get(key))

    def add(self, key, number):
        self.make(f"0 add {key} {number}", key, self.pairs.get(key, 0) + number)

    def get(self, key):
        value = f"= {self.pairs[key]}" if key in self.pairs else "absent"
        if not self.waits(key):
            self.say(f"0 get {key}", f"0 get {key} {value}")
            return
        self.tickets += 1
        self.say(f"0 get {key}", f"0 get {key} pending @{self.tickets}")
        self.turn()
        self.say("0 poll", f"0 @{self.tickets} get {key} {value}", "0 poll left 0")

    # ---- the keeper

    def set_sweep(self, start, to):
        self.start, self.at, self.to, self.wanted = start, start, to, []

    def needs(self, record):
        """Its key has to be written anew: it has a value here, and its newest record, if it has one, is below the sweep's end."""
        return record.value is not None and self.newest.get(record.key, 0) < self.to

    def sweep(self):
        self.wanted, at, end = [], self.at, min(self.to, self.at + RECORDS)
        while at < end and len(self.wanted) < WANTED:
            if self.needs(self.records[at - 1]):
                self.wanted.append(self.records[at - 1].key)
            at += 1
            self.at = self.at if self.wanted else at

    def turn(self, phase="rest"):
        """A turn with no commit in hand, or the one that leads to the phase. Each says what the sweep's last turn has found wanted."""
        if self.sweeps and self.hand is None and self.at < self.to:
            self.sweep()
        wants = " wants" * bool(self.wanted) + "".join(f" {key}" for key in self.wanted)
        self.say("k turn", f"k turn {phase} {self.version if phase == 'rest' else self.number + 2}{wants}")

    def ask(self, kind):
        """A commit is asked for. Another one may run."""
        self.sweeps = kind == TRIM
        if self.hand:
            self.say(f"k {kind}", "k refused 10 CommitRunning")
            return
        is_swept = self.at == self.to and self.to <= self.first
        self.hand = kind, self.to if is_swept else self.begin, self.end()
        self.kept_now = self.number + 1, self.serial, dict(self.pairs)
        self.say(f"k {kind}", f"k commit {self.number + 1}")

    def cross(self, before, behind):
        """The commit in hand comes to its point: it keeps what is done before, and not what is done behind."""
        self.say("0 refresh", f"0 refresh prepare {self.number + 1}")
        before()
        self.kept_now = self.number + 1, self.serial, dict(self.pairs)
        self.turn("in-progress")
        self.version = self.number + 2
        self.say("0 refresh", f"0 refresh in-progress {self.version}")
        behind()

    def finish(self):
        kind, begin, first = self.hand
        if kind != LOG and (self.at == self.start or self.to == begin):
            self.set_sweep(begin, first)
        self.first = self.first if kind == LOG else first
        self.begin, self.fixed, self.kept_end, self.kept, self.hand = begin, self.end(), self.end(), self.kept_now, None
        self.number += 1
        self.version = self.number + 1
        self.say("k finish", f"k finished {self.number} points {self.kept[1]}")
        self.cuts.append((len(self.lines), self.begin, self.kept))

    def commit(self, kind, *parts):
        self.ask(kind)
        if parts:
            self.cross(*parts)
        self.finish()

    def crash(self):
        number, self.serial, pairs = self.kept
        self.pairs, self.hand, self.sweeps, self.version = dict(pairs), None, False, number + 1
        del self.records[self.kept_end - 1 :]
        self.newest = {}
        for a in range(self.begin, self.end()):
            record = self.records[a - 1]
            if record.version > number:
                record.version = 0  # it is lost, and no later version's
            if record.version:
                self.newest[record.key] = a
        self.fixed = self.recovered = self.end()
        self.tickets = 0
        self.set_sweep(self.begin, self.begin)
        self.say("crash", f"crash commit {number} points {self.serial} pairs {len(pairs)}", *(f"pair {key} {pairs[key]}" for key in sorted(pairs)), *AGREES)

    def row(self, name):
        return Row(name, whole(self.lines), whole(self.answers), words=("--check",))


# ---- By hand: what is wanted, and when turns sweep ------------------------------------------------------------------------------------


def written(keys, sizes=SIZES, value=10):
    store = Store(sizes)
    for key in keys:
        store.up(key, value + key)
    return store


def passed_again():
    """A key that was written anew is wanted no more, by an update or by a keep. Then the next commit's log begins at the sweep's end."""
    store = written((7, 8, 9))
    store.commit(TRIM)
    store.turn()
    store.up(8, 21)
    store.turn()
    store.keep(7, 9)
    store.turn()
    store.commit(LOG)
    store.crash()
    for key in (7, 8, 9, 10):
        store.get(key)
    return store


def wanted_twice():
    """Of a key with two records below the end both are wanted. Of one that was deleted there the record with a value is, and not the delete."""
    store = written((7, 8, 6))
    store.delete(6)
    store.commit(FULL)
    store.up(7, 11)
    store.delete(8)
    store.delete(5)
    store.commit(TRIM)
    store.turn()
    store.keep(8)
    store.turn()
    store.keep(7)
    store.turn()
    store.commit(FULL)
    return store


def deleted_again():
    """What was deleted behind the end is passed."""
    store = written((1, 2, 3))
    store.commit(TRIM)
    store.delete(2)
    store.turn()
    store.keep(1)
    store.delete(3)
    store.turn()
    store.commit(LOG)
    store.crash()
    for key in (1, 2, 3):
        store.get(key)
    return store


def absent_keys():
    """A keep of a key that was never written gives it a record without a value, which is passed."""
    store = Store()
    store.keep(1, 2, 1)
    store.up(3, 30)
    store.commit(TRIM)
    store.turn()
    store.keep(1, 3)
    store.turn()
    store.commit(TRIM)
    store.turn()
    store.keep(3)
    store.turn()
    store.commit(FULL)
    return store


def more_than_sixteen():
    """Forty keys are wanted, sixteen at a time, and again as long as the first of them isn't kept."""
    store = written(range(1, 41), WIDE)
    store.commit(TRIM)
    store.turn()
    store.keep(*range(2, 17))
    store.turn()
    store.keep(1, *range(17, 33))
    for _ in range(2):
        store.turn()
        store.keep(*store.wanted)
    store.turn()
    store.commit(LOG)
    store.crash()
    return store


def more_than_a_turn_meets():
    """A sweep of 300 records takes two turns, and the last record's key alone is wanted. Then a first key is, and no turn comes further."""
    store = written(range(1, 301), WIDE)
    store.commit(TRIM)
    for key in range(1, 300):
        store.up(key, 5)
    for _ in range(3):
        store.turn()
    store.keep(300)
    store.turn()
    store.commit(TRIM)
    store.turn()
    for key in range(2, 290):
        store.up(key, 6)
    for _ in range(2):
        store.turn()
    store.keep(1)
    for _ in range(3):
        store.turn()
    return store


def exactly(records, keys):
    """As many records as a turn meets, or one more or less, of which the last one is wanted; and as many keys as it wants, or so."""
    store = written(range(1, records + 1), WIDE)
    store.commit(TRIM)
    for key in range(1, records + 1 - keys):
        store.up(key, 1)
    for _ in range(3):
        store.turn()
        store.keep(*store.wanted)
    store.turn()
    store.commit(LOG)
    return store


def two_in_a_row():
    """The second of two trims moves the end of a sweep that has passed nothing, and not that of one which has. It may clear what was wanted."""
    store = written((1, 2, 3))
    store.commit(TRIM)
    store.turn()
    store.up(4, 40)
    store.commit(TRIM)
    store.turn()
    store.up(1, 11)
    store.turn()
    store.up(5, 50)
    store.commit(TRIM)
    store.turn()
    store.keep(2, 3)
    store.turn()
    store.keep(4)
    store.turn()
    store.commit(TRIM)
    store.turn()
    store.crash()
    return store


def other_commits():
    """Behind another line of a commit turns sweep no more. They say still what the sweep's last turn has found."""
    store = written((1, 2, 3))
    store.commit(FULL)
    store.turn()
    store.commit(TRIM)
    store.up(1, 11)
    for kind in (LOG, FULL):
        store.turn()
        store.commit(kind, lambda: None, lambda: None)
        store.keep(*store.wanted[:1])
        store.turn()
        store.ask(TRIM)
        store.cross(lambda: None, lambda: store.up(4, 40))
        store.finish()
    store.turn()
    return store


def refused_commits():
    """So it is of a line whose commit is refused: behind a trim turns sweep, and behind another one they don't."""
    store = written((1, 2))
    store.ask(LOG)
    store.ask(TRIM)
    store.finish()
    store.turn()
    store.commit(FULL)
    store.turn()
    store.ask(FULL)
    store.ask(TRIM)
    store.finish()
    store.turn()
    store.keep(1)
    store.turn()
    store.ask(TRIM)
    store.ask(LOG)
    store.finish()
    store.turn()
    return store


def finish_alone():
    """A finish without a commit makes no turn, and so no sweep."""
    store = written((1, 2))
    store.commit(TRIM)
    store.say("k finish", "k finish nothing")
    store.turn()
    store.keep(1, 2)
    store.say("k finish", "k finish nothing")
    store.commit(LOG)
    store.crash()
    store.commit(TRIM)
    store.turn()
    return store


def in_a_sweep(lines):
    """A crash in the middle of a sweep, or behind it, and in a commit whose log would begin further on. The next life sweeps anew."""
    store = written((1, 2, 3, 4))
    store.delete(2)
    steps = [
        lambda: store.commit(TRIM),
        store.turn,
        lambda: store.keep(1),
        store.turn,
        lambda: store.keep(3, 4),
        store.turn,
        lambda: store.ask(LOG),
        lambda: store.cross(lambda: store.up(5, 50), lambda: store.up(6, 60)),
        store.finish,
    ]
    for step in steps[:lines]:
        step()
    store.crash()
    for key in (1, 3, 4, 5, 6, 7):
        store.get(key)
    store.commit(TRIM)
    store.turn()
    for _ in range(2):
        store.keep(*dict.fromkeys(store.wanted))
        store.turn()
    store.commit(FULL)
    store.crash()
    return store


def lost_behind_the_point():
    """A crash loses a record behind the point, which stays in the log. The next life's sweep finds no record of its key, and wants it."""
    store = written((1,))
    store.commit(FULL, lambda: store.up(2, 20), lambda: store.up(3, 30))
    store.crash()
    store.commit(TRIM)
    store.turn()
    store.keep(3, 1)
    store.turn()
    store.keep(2)
    store.turn()
    store.commit(LOG)
    store.crash()
    return store


def trimmed_again(times):
    """Trims one behind the other, each with all that is wanted kept: sixteen keys are never wanted at once."""
    store = written(range(1, 13))
    for number in range(times):
        store.commit(TRIM)
        store.up(number % 12 + 1, number)
        store.turn()
        while store.wanted:
            store.keep(*store.wanted)
            store.turn()
    store.commit(LOG)
    store.crash()
    for key in range(1, 14):
        store.get(key)
    return store


def deletes_alone():
    """Of a log of deletes nothing is wanted, and nothing is left: the next commit's log begins at its end."""
    store = Store()
    for key in (1, 2, 3):
        store.delete(key)
    store.commit(TRIM)
    store.turn()
    for kind in (LOG, FULL):
        store.commit(kind)
        store.crash()
    for key in (1, 2, 3):
        store.get(key)
    store.up(1, 10)
    store.commit(LOG)
    store.crash()
    return store


def keys_of_one_home():
    """Keys of one home follow each other in one chain. Each is wanted by itself, as is the greatest key that there is."""
    keys = (1, 1 + 2**19, 1 + 2**20, 2**64 - 1, 2**63)
    store = written((1, 1 + 2**19, 1 + 2**20))
    store.up(2**64 - 1, 2**64 - 2)
    store.up(2**63, 0)
    store.commit(TRIM)
    store.turn()
    for key in keys[1:]:
        store.keep(key)
        store.turn()
    store.delete(1)
    store.turn()
    store.commit(LOG)
    return store


def failed_sweep():
    """The device fails in a sweep's first read: nothing is lost that a commit has kept, and the next life sweeps anew."""
    store = written((1, 2))
    store.commit(TRIM)
    store.say("fail 1")
    store.say("k turn", "k refused 14 Device")
    store.say("k turn", "k refused 13 Broken")
    store.say("k commit trim", "k refused 13 Broken")
    store.get(1)
    store.crash()
    store.commit(TRIM)
    store.turn()
    return store


def row_of(name, steps):
    """A row of lines, each with its answers."""
    return Row(name, whole([line for line, _ in steps]), whole([it for _, answers in steps for it in answers]))


def drain_full():
    """Session 1 never refreshes, so what each turn defers stays in one of the eight drain slots. From the ninth on a turn has none, and says so before its wants."""
    steps = [("large 6 4 64 1 2 0 128", ()), ("0 up 1 1", ["0 #1 done"]), ("0 up 2 2", ["0 #2 done"])]
    steps += [(f"k {TRIM}", ["k commit 1"]), ("k finish", ["k finished 1 points 2 0"]), ("k turn", ["k turn rest 2 wants 1 2"])]
    for turn in range(10):
        steps += [(f"0 up {key} 1", [f"0 #{key} done"]) for key in range(4 * turn + 3, 4 * turn + 7)]
        steps += [("k turn", [f"k turn rest 2{' drain full' * (turn >= 8)} wants 1 2"])]
    return row_of("no drain slot is free in a sweep", steps)


def resting_flush():
    """The turn that writes a page rests before its sync, and sweeps nothing. So what was wanted before is told again, though it is kept."""
    steps = [("large 8 64 4 1 1 0 64", ()), *((f"0 up {key} 1", [f"0 #{key} done"]) for key in range(1, 10))]
    steps += [(f"k {TRIM}", ["k commit 1"]), ("k finish", ["k finished 1 points 9"]), ("k turn", ["k turn rest 2 wants 1 2 3 4 5 6 7 8 9"])]
    steps += [(f"0 up {key} 1", [f"0 #{key} done"]) for key in range(10, 101)]
    for key, first in ((1, 2), (2, 2), (3, 4)):
        wants = " ".join(map(str, range(first, 10)))
        steps += [(f"0 keep {key}", [f"0 #{100 + key} = 1"]), ("0 refresh", ["0 refresh rest 2"]), ("k turn", [f"k turn rest 2 wants {wants}"])]
    return row_of("a flush that rests in a sweep", steps)


BY_HAND = {
    "deletes alone": deletes_alone,
    "keys of one home": keys_of_one_home,
    "a device that fails in a sweep": failed_sweep,
    "a key that is written anew, or kept": passed_again,
    "two records of a key, and deletes": wanted_twice,
    "keys that are deleted behind a sweep's end": deleted_again,
    "keys that have no value": absent_keys,
    "more keys than are wanted at once": more_than_sixteen,
    "more records than a turn meets": more_than_a_turn_meets,
    "trims one behind the other, in a sweep": two_in_a_row,
    "other commits behind a trim": other_commits,
    "trims that are refused": refused_commits,
    "a finish without a commit": finish_alone,
    "a record that a crash has lost": lost_behind_the_point,
    "eight trims": lambda: trimmed_again(8),
    **{f"a crash behind {lines} steps of a sweep": lambda lines=lines: in_a_sweep(lines) for lines in range(1, 10)},
    **{f"a sweep of {records} records": lambda records=records: exactly(records, 1) for records in (255, 256, 257)},
    **{f"a sweep that wants {keys} keys": lambda keys=keys: exactly(40, keys) for keys in (15, 16, 17, 32)},
}


WORDS = [
    (("shape 4 16 4 2 1 0 64", "k commit trim"), "2 Word", ()),
    (("shape 4 16 4 2 1 0 64", "k commit trim x"), "2 Word", ()),
    (("open", "k commit trim"), "2 Word", ("--file", STORE)),
    (("shape 4 16 4 2 1 0 64", "k commit trim"), "2 Word", ("--threads",)),
    (("large 4 16 4 2 1 0 64", "", "k commit trim x"), "3 Count", ()),
    (("large 4 16 4 2 1 0 64", "k commit trim log"), "2 Count", ()),
    (("large 4 16 4 2 1 0 64", "k commit log trim"), "2 Count", ()),
    (("large 4 16 4 2 1 0 64", "k commit trims"), "2 Word", ()),
    (("large 4 16 4 2 1 0 64", "k commit Trim"), "2 Word", ()),
    (("large 4 16 4 2 1 0 64", "k trim"), "2 Word", ()),
    (("large 4 16 4 2 1 0 64", "0 commit trim"), "2 Word", ()),
    (("large 4 16 4 2 1 0 64", "k commit trim", "0 get 1"), "2 Mode", ("--threads",)),
    (("large 4 16 4 2 1 0 64", "k commit trim", "k commit trim"), "2 Mode", ("--threads",)),
]

THREADED = ["large 4 16 4 2 2 0 64", *(f"{n % 2} up {n} {n}" for n in range(20)), TRIM, "0 up 2 5", LOG, "1 up 3 7", TRIM, "1 keep 40"]


def trims():
    yield from (store().row(name) for name, store in BY_HAND.items())
    yield drain_full()
    yield resting_flush()
    yield from (Row(f"{lines[-1]}, {wanted}", whole(lines), f"script line {wanted}\n", 2, words) for lines, wanted, words in WORDS)
    lines = [it for line in THREADED for it in ((f"k {line}", "k finish") if line in KINDS else (line,))]
    for file in ((), ("--file", STORE)):
        yield Row(f"trims on threads {' '.join(file)}", whole(lines), agree(3, 21), words=("--threads", *file))


# ---- Lives that are drawn -----------------------------------------------------------------------------------------------------------


class Drawn(Store):
    """Keys, words and commits that are drawn. What is wanted is kept, or not."""

    def __init__(self, seed):
        super().__init__()
        self.dice = random.Random(seed)
        self.keys = range(1, self.dice.choice((4, 9, 20)))

    def update(self, words=("up", "up", "del")):
        dice, key = self.dice, self.dice.choice(self.keys)
        word = dice.choice(words)
        if word == "up":
            self.up(key, dice.randrange(1000))
        elif word == "del":
            self.delete(key)
        elif not self.is_gone(key):
            {"add": lambda: self.add(key, dice.randrange(100)), "keep": lambda: self.keep(key), "get": lambda: self.get(key)}[word]()

    def updates(self):
        for _ in range(self.dice.randrange(3)):
            self.update()

    def keep_wanted(self):
        keys = [key for key in dict.fromkeys(self.wanted) if not self.is_gone(key)]
        self.keep(*(keys if self.dice.random() < 0.7 else keys[:1]))

    def commit_of(self):
        """One that goes on in one line, or in several, with another one that is refused or a crash in it."""
        dice, kind = self.dice, self.dice.choice((*KINDS, TRIM))
        if dice.random() < 0.5:
            self.commit(kind)
            return
        self.ask(kind)
        if dice.random() < 0.2:
            self.ask(dice.choice(KINDS))
        self.cross(self.updates, self.updates)
        if dice.random() < 0.8:
            self.finish()
        else:
            self.crash()

    def step(self):
        draw = self.dice.random()
        if draw < 0.4:
            self.update(("up", "del", "add", "keep", "get"))
        elif draw < 0.65:
            self.turn()
        elif draw < 0.8:
            self.keep_wanted()
        elif draw < 0.96:
            self.commit_of()
        else:
            self.crash()

    def lived(self):
        for _ in range(self.dice.randrange(20, 60)):
            self.step()
        self.crash()
        return self


def ran(program, lines, *words, folder=None):
    how = {"input": whole(lines).encode(), "capture_output": True, "timeout": SECONDS, "cwd": folder}
    return subprocess.run([program, *words], **how)


def other_in_file(program, store):
    """What the file holds, or tells, otherwise behind each commit before the first crash: the slow program finds the begin and the pairs. No begin falls."""
    before, first_crash = 1, store.lines.index("crash")
    for count, begin, (number, point, pairs) in store.cuts:
        if count > first_crash:
            return None
        with tempfile.TemporaryDirectory() as folder:
            ran(program, store.lines[:count], "--file", STORE, folder=folder)
            image = contents(os.path.join(folder, STORE))
        slot, found = slot_of(image, shape_of(image), newest(image)), find(image)
        wanted = "".join(f" {key}={pairs[key]}" for key in sorted(pairs))
        held = slot.number, slot.points, slot.begin, found[0].partition(", pairs")[2]
        if held != (number, [point], begin, wanted) or begin < before:
            return f"behind commit {number} the file holds {found}, and not begin {begin}, point {point}, pairs{wanted}"
        before = begin
    return None


def other_behind_opening(program, store):
    """What a life behind an opening leaves in the file otherwise. It can't trim, and its commits keep the begin."""
    if "crash" in store.lines[: store.cuts[-1][0]] or store.keys[-1] not in store.cuts[-1][2][2]:
        return None
    count, begin, (number, _, pairs) = store.cuts[-1]
    with tempfile.TemporaryDirectory() as folder:
        ran(program, store.lines[:count], "--file", STORE, folder=folder)
        lines = ["open", f"0 up {store.keys[-1]} 1", "k commit", "k finish", "k turn", f"0 up {store.keys[-1]} 2", "k commit log", "k finish"]
        ran(program, lines, "--file", STORE, folder=folder)
        image = contents(os.path.join(folder, STORE))
    slot, found = slot_of(image, shape_of(image), newest(image)), find(image)
    wanted = "".join(f" {key}={value}" for key, value in sorted({**pairs, store.keys[-1]: 2}.items()))
    is_same = (slot.number, slot.begin, found[0].partition(", pairs")[2]) == (number + 2, begin, wanted)
    return None if is_same else f"behind an opening the file holds {found}, and not begin {begin}, pairs{wanted}"


DRAWN, FILED = 96, 8


def drawn_lives(program):
    """How many there are, and what is otherwise; and in how many the begin moves."""
    others, moved = [], 0
    for seed in range(DRAWN):
        store = Drawn(seed).lived()
        moved += store.begin > 1
        done = ran(program, store.lines, "--check")
        other = first_other(done.stdout, whole(store.answers).encode()) if done.stdout != whole(store.answers).encode() else None
        other = other or ((other_in_file(program, store) or other_behind_opening(program, store)) if seed % FILED == 0 and store.cuts else None)
        others += [f"a life with trims, drawn by {seed}: {other}"] if other else []
    others += [f"the begin moves in {moved} lives of {DRAWN}"] if moved < DRAWN // 5 else []
    return DRAWN, others


# ---- A crash at each call of the device -----------------------------------------------------------------------------------------------


class Trailed(Store):
    """It knows what it was before each line of the keeper."""

    def __init__(self):
        super().__init__()
        self.trail = {}

    def note(self):
        self.trail[len(self.lines)] = copy.deepcopy({name: value for name, value in vars(self).items() if name != "trail"})

    def turn(self, *phase):
        self.note()
        super().turn(*phase)

    def finish(self):
        self.note()
        super().finish()

    def back_to(self, line, is_finished):
        """A crash strikes in this line. The commit in hand is finished, or isn't."""
        asked, self.__dict__ = self.lines[line], {**copy.deepcopy(self.trail[line]), "trail": {}}
        lines, answers = list(self.lines), list(self.answers)
        if is_finished:
            super().finish()
        self.crash()
        self.answers = answers + self.answers[max(it for it, answer in enumerate(self.answers) if answer.startswith("crash ")) :]
        self.lines = [*lines, asked]


def swept_life():
    """Two sweeps, the first with a crash before it, and three commits behind which the begin moves."""
    store = Trailed()
    for key in (1, 2, 3, 4):
        store.up(key, 10 * key)
    store.delete(4)
    store.commit(FULL)
    store.crash()
    store.up(5, 50)
    store.commit(TRIM)
    store.turn()
    store.keep(1, 2, 3)
    store.turn()
    store.commit(LOG, lambda: store.up(1, 11), lambda: store.up(6, 60))
    store.commit(TRIM)
    store.turn()
    store.keep(*store.wanted)
    store.turn()
    store.commit(FULL)
    store.up(7, 70)
    return store


def life_behind(store):
    """What is there is read, swept, kept and committed, and is there still."""
    for key in range(1, 9):
        store.get(key)
    for kind in (TRIM, LOG):
        store.commit(kind)
        store.turn()
        store.keep(*dict.fromkeys(store.wanted))
        store.turn()
    store.crash()


def crashed(program, call, torn):
    """What is otherwise where a crash strikes in this call of the device behind the first crash; and whether it struck."""
    store, words = swept_life(), ("--check", "--torn", str(torn))
    at = store.lines.index("crash") + 1
    written = ran(program, [*store.lines[:at], f"crash {call}", *store.lines[at:]], *words).stdout.decode().splitlines()
    same = next((n for n, (one, other) in enumerate(zip(written, store.answers)) if one != other), len(store.answers))
    if same == len(store.answers):
        return None, False
    found = re.fullmatch(r"crash commit (\d+) .*", written[same])
    lines = [line for line in store.trail if line >= at and len(store.trail[line]["answers"]) == same]
    if not found or len(lines) != 1:
        return f"line {same + 1} of what is written is {written[same]}", True
    number, kept = int(found[1]), store.trail[lines[0]]["number"]
    if number != kept and not (number == kept + 1 and torn == 165 and store.lines[lines[0]] == "k finish"):
        return f"commit {number} stands, behind {kept}", True
    store.back_to(lines[0], number > kept)
    life_behind(store)
    done = ran(program, [*store.lines[:at], f"crash {call}", *store.lines[at:]], *words)
    wanted = whole(store.answers).encode()
    return first_other(done.stdout, wanted) if done.stdout != wanted else None, True


def crashed_lives(program):
    count, others, call, strikes = 0, [], 1, True
    while strikes:
        for torn in TORN[: 2 if call % 3 else 3]:
            other, strikes = crashed(program, call, torn)
            count, others = count + 1, others + [f"trims, a crash in call {call}, torn bytes of {torn}: {other}"] * bool(other)
        call += 1
    return count, others


# ---- Several sessions, which are interleaved or wait for the device -------------------------------------------------------------------


# so often lines are played again, until nothing is pending
PATIENCE = 8


class Shared:
    """Sessions with keys of their own, over pages that leave memory. The script grows by parts: what a part wants is kept in the next one."""

    def __init__(self, program, sessions, sizes, seed):
        self.program, self.sessions, self.dice = program, sessions, random.Random(seed)
        self.lines, self.read = [f"large {sizes}"], 0
        self.base, self.updates, self.wanted, self.left, self.other = {}, [], [], {}, None

    def key_of(self, session):
        return session + self.sessions * self.dice.randrange(7)

    def owner(self, key):
        return key % self.sessions

    def now(self, points=None):
        """The pairs, with what each session did up to its point."""
        pairs = dict(self.base)
        for session, serial, word, key, value in self.updates:
            if points is None or serial <= points[session]:
                value = pairs.get(key) if word == "keep" else value + (pairs.get(key) or 0) if word == "add" else value
                pairs[key] = value
        return {key: value for key, value in pairs.items() if value is not None}

    def op(self, key):
        dice, session = self.dice, self.owner(key)
        word = dice.choice(("up", "up", "add", "del", "get", "keep"))
        return f"{session} {word} {key}" + f" {dice.randrange(1000)}" * (word in ("up", "add"))

    def part(self, lines):
        """Plays these lines, and others until nothing is pending."""
        polls = [f"{n} {word}" for n in range(self.sessions) for word in ("refresh", "poll")]
        self.play([*lines, *([*polls, "k turn"] * 3)])
        for _ in range(PATIENCE):
            if not any(self.left.values()):
                return
            self.play([*polls, "k turn"] * 3)
        self.other = self.other or f"requests are left waiting: {self.left}"

    def play(self, lines):
        self.lines += lines
        done = ran(self.program, self.lines, "--check")
        written = done.stdout.decode().splitlines()
        fresh, self.read = iter(written[self.read :]), len(written)
        if done.returncode:
            self.other = f"status {done.returncode}"
        for line in lines:
            self.hear(line, fresh)
        if extra := next(fresh, None):
            self.other = f"a line is left: {extra}"

    def hear(self, line, fresh):
        words = line.split()
        if words[0] == "crash":
            self.hear_crash(fresh)
        elif line == "k finish" or words[1] == "poll":
            end = "k finish" if line == "k finish" else f"{words[0]} poll left"
            said = next(said for said in map(self.heard_value, fresh) if said.startswith(end))
            if line != "k finish":
                self.left[words[0]] = int(said.split()[-1])
        elif words[1] == "turn":
            said = next(fresh, "")
            self.wanted = [int(key) for key in said.partition(" wants")[2].split()]
            if not said.startswith("k turn rest"):
                self.other = f"{line}: {said}"
        else:
            said = next(fresh, "")
            made = re.match(r"\d+ #(\d+) ", said)
            if made:
                value = int(words[3]) if len(words) > 3 else None
                self.updates.append((int(words[0]), int(made[1]), words[1], int(words[2]), value))
            self.heard_value(said)

    def heard_value(self, said):
        """A read is answered what stands: no key has two calls in one part."""
        read = re.fullmatch(r"\d+ (@\d+ )?get (\d+) (= (\d+)|absent)", said)
        if read and self.now().get(int(read[2])) != (int(read[4]) if read[4] else None):
            self.other = f"{said}, where {self.now()} is to be found"
        return said

    def hear_crash(self, fresh):
        said = next(fresh, "").split()
        points, count = [int(it) for it in said[4 : said.index("pairs")]], int(said[-1])
        pairs = dict(map(int, next(fresh).split()[1:]) for _ in range(count))
        self.base, self.updates, self.wanted = self.now(points), [], []
        if pairs != self.base:
            self.other = f"a crash leaves {pairs}, and not {self.base}"
        next(fresh)


def shared_life(program, seed):
    dice = random.Random(seed)
    sessions = dice.choice((1, 2, 3))
    pages = 65 * sessions**2 // 4 + 100
    life = Shared(program, sessions, f"2 4 {dice.choice((2, 4))} 1 {sessions} {65 * sessions + 10} {pages}", seed)
    for _ in range(7):
        wanted = list(dict.fromkeys(life.wanted))
        keeps = wanted if dice.random() < 0.7 else wanted[:1]
        keys = {life.key_of(n) for n in range(sessions) for _ in range(3)} - set(keeps)
        lines = [*(f"{life.owner(key)} keep {key}" for key in keeps), *(life.op(key) for key in sorted(keys))]
        draw = dice.random()
        lines += [f"k {dice.choice((*KINDS, TRIM))}", "k finish"] * (draw < 0.6) + ["crash"] * (draw > 0.85)
        life.part(lines)
        if life.other:
            break
    life.part(["crash"])
    return life


SHARED = 10


def shared_lives(program):
    others = [(seed, shared_life(program, seed).other) for seed in range(SHARED)]
    return SHARED, [f"sessions with trims, drawn by {seed}: {other}" for seed, other in others if other]


# ---- Interleaved calls ----------------------------------------------------------------------------------------------------------------

SEEDED = "4 16 8 4 3 225 128"
SEEDS = 8


def seeded_script(dice):
    """Parts of three sessions' calls, which are interleaved with the keeper's turns up to the next finish. No key has two calls in one part. With it what
    each session updates in each of two lives, by its serials."""
    lines, lives = [f"large {SEEDED}"], []
    # a finish without a commit does nothing, but calls on both sides of it aren't interleaved
    quiet = [it for _ in range(4) for it in ("k turn", "k finish", *(f"{n} {word}" for n in range(3) for word in ("refresh", "poll")), "k finish")]
    for _ in range(2):
        updates = [[], [], []]
        for kind in (TRIM, None, None, TRIM, None, LOG, TRIM, None, FULL):
            part = [f"k {kind}"] if kind else []
            for n in range(3):
                for key in dice.sample(range(n, 30, 3), 6):
                    word = dice.choice(("up", "add", "keep", "keep", "keep", "del"))
                    value = dice.randrange(1000) if word in ("up", "add") else None
                    part.append(f"{n} {word} {key}" + f" {value}" * (value is not None))
                    updates[n].append((word, key, value))
                part += [f"{n} refresh"]
            part += ["k turn"] * 8
            dice.shuffle(part)
            # the order of a session's calls, with which its serials go
            for n in range(3):
                asked = iter([f"{n} {word} {key}" + f" {value}" * (value is not None) for word, key, value in updates[n][-6:]])
                part = [next(asked) if re.match(rf"{n} (up|add|keep|del) ", line) else line for line in part]
            lines += [*part, "k finish", *quiet]
        lives.append(updates)
        lines.append("crash")
    return lines, lives


def kept_of(base, points, before, updates):
    """The pairs, where each session's updates behind its point before count up to this one."""
    pairs = dict(base)
    for point, first, its in zip(points, before, updates):
        for word, key, value in its[: point - first]:
            value = pairs.get(key) if word == "keep" else value + (pairs.get(key) or 0) if word == "add" else value
            pairs[key] = value
    return {key: value for key, value in pairs.items() if value is not None}


def seeded_life(program, seed):
    lines, lives = seeded_script(random.Random(seed))
    done = ran(program, lines, "--check", *(("--seed", str(seed)) if seed else ()))
    written = done.stdout.decode()
    if done.returncode or " refused " in written.replace(" refused 10 CommitRunning", "") or " wants " not in written:
        return f"status {done.returncode}, or a refusal, or nothing wanted"
    reports = re.findall(r"^crash commit \d+ points (\d+) (\d+) (\d+) pairs \d+\n((?:pair \d+ \d+\n)*)", written, re.MULTILINE)
    pairs, before = {}, (0, 0, 0)
    for (*points, said), updates in zip(reports, lives):
        points = [int(point) for point in points]
        pairs, before = kept_of(pairs, points, before, updates), points
        found = {int(key): int(value) for key, value in re.findall(r"pair (\d+) (\d+)", said)}
        if found != pairs:
            return f"a crash leaves {found}, and not {pairs}"
    return None if len(reports) == 2 else "there is a crash without a report"


def seeded_lives(program):
    others = [(seed, seeded_life(program, seed)) for seed in range(SEEDS)]
    return SEEDS, [f"interleaved trims, seed {seed}: {other}" for seed, other in others if other]


# ---- Reads of what lies below the begin -----------------------------------------------------------------------------------------------

CHAIN = 30
BEHIND = 2**15  # keys of one home, where there is one bucket


def waiting_read(turns):
    """A read of a key that isn't there follows thirty records of its home on the device, one in each turn. After some turns a commit moves the begin past
    them. What is read next is gone: the read searches anew, and finds the home's newest records alone, which are in memory."""
    keys = [BEHIND * n for n in range(1, CHAIN + 1)]
    lines = ["large 0 64 8 4 2 0 128", *(f"0 up {key} 1" for key in keys), "k commit", "k finish", "crash", "k commit trim", "k finish"]
    lines += [*(f"0 up {key} 2" for key in keys), "k turn", "1 sleep", f"0 get {BEHIND * 99}", *["k turn", "0 poll"] * turns]
    return [*lines, "k commit log", "k finish"], ["k turn", "0 poll"] * (CHAIN + 2)


def other_of_read(program, turns):
    lines, polls = waiting_read(turns)
    pairs = [f"pair {BEHIND * n} 2" for n in range(1, CHAIN + 1)]
    written = ran(program, [*lines, *polls, "crash"], "--check").stdout.decode().splitlines()
    if f"0 get {BEHIND * 99} pending @1" not in written or "k finished 3 points 60 0" not in written:
        return "the read doesn't wait, or the commit isn't finished"
    answered = [n for n, line in enumerate(written) if line == f"0 @1 get {BEHIND * 99} absent"]
    finished = written.index("k finished 3 points 60 0")
    waits = [line for line in written[finished:] if line == "0 poll left 1"]
    if len(answered) != 1 or answered[0] < finished or len(waits) > 3:
        return f"the read is answered at {answered}, behind {len(waits)} more polls"
    return None if written[-CHAIN - 1 : -1] == pairs else f"a crash leaves {written[-CHAIN - 1 :]}"


def other_of_kept_read(program):
    """So a read waits for the home's last record, while the other session writes all its keys anew and the begin moves. Then it finds the new record."""
    keys = [BEHIND * n for n in range(1, CHAIN + 1)]
    lines = ["large 0 64 8 4 2 0 128", *(f"0 up {key} 1" for key in keys), "k commit", "k finish", "crash", "k commit trim", "k finish", f"0 get {BEHIND}"]
    lines += [*(f"1 up {key} 2" for key in keys), "k turn", "k commit log", "k finish", *["k turn", "0 poll"] * CHAIN, "crash"]
    written = ran(program, lines, "--check").stdout.decode().splitlines()
    kept = f"k finished 3 points {CHAIN} {CHAIN}"
    wanted = [f"0 get {BEHIND} pending @1", kept, f"0 @1 get {BEHIND} = 2", *(f"pair {key} 2" for key in keys)]
    is_same = [line for line in written if line in wanted][-len(wanted) :] == wanted
    return None if is_same else f"it writes {[line for line in written if ' #' not in line]}"


def waiting_reads(program):
    others = [(turns, other_of_read(program, turns)) for turns in (0, 1, 5, 10)]
    others += [("no", other_of_kept_read(program))]
    return len(others), [f"a read that waits for {turns} turns before the begin moves: {other}" for turns, other in others if other]


def trimmed_lives(program):
    """How many there are, and what is otherwise."""
    count, others = 0, []
    for lives in (drawn_lives, crashed_lives, shared_lives, seeded_lives, waiting_reads):
        its_count, its_others = lives(program)
        count, others = count + its_count, others + its_others
    return count, others
