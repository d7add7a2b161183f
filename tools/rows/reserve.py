"""Scripts in which polls take as much as they ever may of the room that calls of a living store leave to them, or nearly as much.

Of S sessions 64 S - 1 requests may wait where calls have come to a bound: the call that took the last of theirs came from a session with room for it. Each of
these requests may need an overflow bucket of its own. Each that is done may cost each other session the record that it was about to publish.
"""
import os
import re
import subprocess
import sys
import tempfile
from dataclasses import dataclass

sys.path.append(os.path.join(os.path.dirname(os.path.abspath(__file__)), "..", "openings"))
from rows import SECONDS, STORE, Row, contents, first_other, whole
from slow_opening import find

REQUESTS = 64  # of one session
FULL, SPENT = "4 IndexFull", "5 LogFull"
# Lines that depend on who steps when.
UNSTEADY = re.compile(r"\d+ (refresh|poll left) |k turn ")
# So much of a file's content is shown.
SHOWN = 300


class Asked:
    """Lines of a script, their answers, and the pairs that the store holds behind them."""

    def __init__(self, sessions, sizes):
        self.sessions = sessions
        self.script, self.answers = [f"large {sizes}"], []
        self.serials, self.pairs, self.waiting = [0] * sessions, {}, []

    def say(self, line, *answers):
        self.script.append(line)
        self.answers += answers

    def ask(self, session, word, key, value, answer, becomes):
        """An update. It is done, or waits and gets this answer later."""
        self.serials[session] += 1
        name = f"{session} #{self.serials[session]}"
        self.pairs[key] = becomes
        self.say(f"{session} {word} {key} {value}", f"{name} {'pending' if answer else 'done'}")
        self.waiting += [f"{name} {answer}"] if answer else []

    def up(self, session, key):
        value = 10_000 * session + self.serials[session]
        self.ask(session, "up", key, value, None, value)

    def up_later(self, session, key):
        value = 10_000 * session + self.serials[session]
        self.ask(session, "up", key, value, "done", value)

    def add_later(self, session, key):
        value = self.pairs[key] + 1
        self.ask(session, "add", key, 1, f"= {value}", value)

    def refuse(self, session, key, fault):
        self.say(f"{session} up {key} 0", f"{session} refused {fault}")

    def part(self):
        """What comes behind it isn't interleaved with what comes before it."""
        self.say("k finish", "k finish nothing")

    def see(self):
        """All sessions see how far the store has come."""
        for session in range(self.sessions):
            self.say(f"{session} refresh", f"{session} refresh rest 1")
        self.part()

    def turn(self):
        """A turn, and one that makes the sync before which a flush rests."""
        for _ in range(2):
            self.say("k turn", "k turn rest 1")
        self.part()

    def poll(self, rounds, with_turns):
        """All sessions poll until nothing waits. Then the keeper empties the drain."""
        for _ in range(rounds):
            self.script += [f"{session} poll" for session in range(self.sessions)]
            self.script += ["k turn", "k turn", *(f"{session} refresh" for session in range(self.sessions))] if with_turns else []
        self.answers += self.waiting
        self.waiting = []
        self.part()
        self.see()
        self.turn()

    def commit(self):
        """A commit of all that was asked. Its polls finish what still waits."""
        self.say("k commit", "k commit 1")
        self.say("k finish", *self.waiting, f"k finished 1 points {self.points()}")

    def points(self):
        return " ".join(map(str, self.serials))


@dataclass(frozen=True)
class Race:
    """A script whose polls are interleaved by seeds. Behind this address they take so many records, or more."""

    name: str
    asked: Asked
    seeds: tuple
    bound: int = 0
    least: int = 0


def requests_of(sessions):
    """The last session has one less: it makes calls behind them."""
    return [(session, number) for session in range(sessions) for number in range(REQUESTS)][:-1]


# ---- Overflow buckets -------------------------------------------------------------------------------------------------------------------


def bucket_keys(sessions, used, spent):
    """Keys that memory's two pages just hold: six in each bucket that is used, seven in the one where calls take their last overflow bucket, and the rest in
    others. A key's bucket is its rest by their count."""
    buckets = 128 * sessions
    keys = [bucket + buckets * tag for bucket in used for tag in range(6)] + [spent + buckets * tag for tag in range(7)]
    others = [bucket for bucket in range(buckets) if bucket != spent and bucket not in used]
    return keys + [others[it % len(others)] + buckets * (it // len(others)) for it in range(512 * sessions - 1 - len(keys))]


def behind_buckets(sessions, bucket_of):
    """Requests wait for a page, and each in a bucket with a slot left. Then calls take the last overflow bucket that is theirs, and these slots."""
    buckets, last, spent = 128 * sessions, sessions - 1, 64 * sessions - 1
    asked = Asked(sessions, f"{buckets.bit_length() - 1} {256 * sessions} 2 1 {sessions} {65 * sessions + 1} {sessions // 4 + 5}")
    places = {(session, number): bucket_of(session, number) for session, number in requests_of(sessions)}
    used = dict.fromkeys(places.values())
    for key in bucket_keys(sessions, used, spent):
        asked.up(0, key)
    asked.part()
    for (session, number), bucket in places.items():
        asked.up_later(session, bucket + buckets * (10 + REQUESTS * session + number))
    asked.part()
    for _ in range(2):
        asked.turn()
        asked.see()
    asked.turn()
    asked.up(last, spent + 7 * buckets)
    asked.refuse(last, spent + 8 * buckets, FULL)
    for bucket in used:
        asked.up(last, bucket + 6 * buckets)
    asked.refuse(last, 9 * buckets, FULL)
    asked.part()
    return asked


def most_buckets(sessions):
    """A row whose requests need an overflow bucket each. A commit's polls finish them, one after another."""
    asked = behind_buckets(sessions, lambda session, number: REQUESTS * session + number)
    asked.commit()
    asked.refuse(0, 9 * 128 * sessions, FULL)
    pairs = [f"pair {key} {value}" for key, value in sorted(asked.pairs.items())]
    asked.say("crash", f"crash commit 1 points {asked.points()} pairs {len(pairs)}", *pairs, "check recovered equals replay")
    return Row(f"{64 * sessions - 1} requests that need an overflow bucket each", whole(asked.script), whole(asked.answers), words=("--check",), seconds=5 * SECONDS)


# ---- Records ----------------------------------------------------------------------------------------------------------------------------


def behind_records(sessions):
    """All requests are for keys of one home, whose records are in the fuzzy region. Calls take the last records that are theirs. Then that region is safe."""
    page, home = 64 * sessions, 2**25
    asked = Asked(sessions, f"10 {page} {4 * sessions} 1 {sessions} 0 {sessions + 2}")
    for number in range(page):
        asked.up(0, home * number)
    asked.part()
    asked.turn()
    asked.see()
    for session, number in requests_of(sessions):
        asked.up_later(session, home * (sessions * number + session))
    asked.part()
    for key in range(1, page - sessions**2):
        asked.up(sessions - 1, key)
    asked.refuse(sessions - 1, page, SPENT)
    asked.part()
    asked.turn()
    asked.see()
    asked.turn()
    return asked


def behind_device(sessions):
    """Requests wait for records of the device. Calls take the last records that are theirs."""
    page = 64 * sessions
    asked = Asked(sessions, f"10 {page} 2 1 {sessions} 0 {sessions + 3}")
    for key in range(2 * page - 1):
        asked.up(0, key)
    asked.part()
    for _ in range(4):
        asked.turn()
        asked.see()
    for session, number in requests_of(sessions):
        asked.add_later(session, sessions * number + session)
    asked.part()
    for key in range(2 * page, 3 * page - sessions**2):
        asked.up(sessions - 1, key)
    asked.refuse(sessions - 1, 3 * page, SPENT)
    asked.part()
    return asked


# ---- Races ------------------------------------------------------------------------------------------------------------------------------

# Of so many sessions S: seeds under which they lose many records to each other. In all their polls may take nearly 64 S S.
LOSSES = {2: (4, 115, 135), 4: (8, 35, 58), 8: (5, 15)}


def races():
    for sessions in (2, 8):
        asked = behind_buckets(sessions, lambda session, number: 0)
        asked.poll(REQUESTS, with_turns=True)
        yield Race(f"requests of {sessions} sessions in one bucket", asked, (0, 1, 2))
    for sessions, seeds in LOSSES.items():
        asked = behind_records(sessions)
        asked.poll(REQUESTS, with_turns=False)
        bound = 128 * sessions - sessions**2
        yield Race(f"requests of {sessions} sessions for one home", asked, seeds, bound, 7 * 64 * sessions**2 // 10)
    for sessions in (2, 4):
        asked = behind_device(sessions)
        asked.poll(3 * REQUESTS, with_turns=True)
        yield Race(f"requests of {sessions} sessions for records of the device", asked, (0, 1), 192 * sessions - sessions**2, 64 * sessions - 1)


def other_of_race(program, race, seed):
    """What is otherwise in a run over a file: its answers, in some order, what the file holds, and how many records polls have taken."""
    asked = race.asked
    with tempfile.TemporaryDirectory() as folder:
        words = {"input": whole(asked.script).encode(), "cwd": folder, "capture_output": True, "timeout": 15 * SECONDS}
        try:
            ran = subprocess.run([program, "--file", STORE, "--seed", str(seed)], **words)
        except subprocess.TimeoutExpired:
            return f"it has not ended after {15 * SECONDS} seconds"
        if ran.returncode:
            return f"status {ran.returncode}"
        found = find(contents(os.path.join(folder, STORE)))[0]
    told, wanted = (whole(sorted(line for line in lines if not UNSTEADY.match(line))).encode() for lines in (ran.stdout.decode().splitlines(), asked.answers))
    if told != wanted:
        return first_other(told, wanted)
    held = re.fullmatch(r"commit 1 tail (\d+) points ([\d ]+), .*, pairs (.*)", found)
    if not held or held[2] != asked.points() or held[3] != " ".join(f"{key}={value}" for key, value in sorted(asked.pairs.items())):
        return f"the file holds {found[:SHOWN]}"
    taken = int(held[1]) - race.bound
    return f"polls have taken {taken} records, and not {race.least}" if taken < race.least else None


def races_differ(program):
    """How many runs there are, and what is otherwise."""
    count, others = 0, []
    for race in races():
        race.asked.commit()
        for seed in race.seeds:
            count += 1
            other = other_of_race(program, race, seed)
            others += [f"{race.name}, --seed {seed}: {other}"] if other else []
    return count, others
