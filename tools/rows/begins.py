"""Stores whose log begins above address 1. Scripts over a file that is opened move no begin, so tools/openings makes the files: by hand (samples.py), and from lives
whose begin moves (moving.py).

A life over such a file has to be answered what a plain map of its updates says. It has to wait for as many records as its log has on the key's way, and
for none below the begin. Each slot that it writes has to say the begin. strace tells the calls of its file, so that a crash can be made at each of them."""
import os
import random
import re
import shutil
import subprocess
import sys
import tempfile
from dataclasses import replace

sys.path.append(os.path.join(os.path.dirname(os.path.abspath(__file__)), "..", "openings"))
from crashes import TORN
from marks import FILE, KINDS, Life
from moving import KEYS, lived_images
from rows import SECONDS, STORE, contents, first_other, spelled, told, whole
from samples import BEGUN
from slow_opening import OPEN, Log, find, is_open, newest, shape_of, slot_of

# ---- By hand ------------------------------------------------------------------------------------------------------------------------

# Home 1.0 has the records 7, 6 and 4, of which the last names address 1. The log begins at 4.
OPENED = """
    open | open commit 6 points 12 pairs 5
         | pair 1 12
         | pair 2 22
         | pair 3 30
         | pair 5 52
         | pair 524289 11
"""
THREE_READ = """
    k turn    | k turn rest 7
    0 poll    | 0 poll left 1
    k turn    | k turn rest 7
    0 poll    | 0 poll left 1
    k turn    | k turn rest 7
"""
# the commit before, by which homes 2.0 and 5.0 have triples that lead below the begin, and no record more
DEAD = replace(BEGUN, commits=BEGUN.commits[:1])

BY_HAND = [
    told(
        "a way ends at the begin, though the last record of it names an address below",
        f"""
        {OPENED}
        0 get 1048577 | 0 get 1048577 pending @1
        {THREE_READ}
        0 poll        | 0 @1 get 1048577 absent
                      | 0 poll left 0
        0 add 1048577 5 | 0 #13 pending
        {THREE_READ}
        0 poll        | 0 #13 = 5
                      | 0 poll left 0
        0 max 2097153 7 | 0 #14 pending
        {THREE_READ}
        0 poll        | 0 #14 = 7
                      | 0 poll left 0
        0 up 3145729 9  | 0 #15 done
        0 del 4194305   | 0 #16 done
        0 add 3145729 1 | 0 #17 = 10
        0 get 4194305 | 0 get 4194305 absent
        """,
        FILE,
        image=BEGUN.image(),
        left=BEGUN.image(),
    ),
    told(
        "a home whose triple leads below the begin has no entry",
        """
        open      | open commit 5 points 9 pairs 3
                  | pair 1 12
                  | pair 3 30
                  | pair 524289 11
        0 get 2   | 0 get 2 absent
        0 get 5   | 0 get 5 absent
        0 add 2 5 | 0 #10 = 5
        0 max 5 6 | 0 #11 = 6
        0 del 2   | 0 #12 done
        0 get 2   | 0 get 2 absent
        0 add 2 7 | 0 #13 = 7
        """,
        FILE,
        image=DEAD.image(),
        left=DEAD.image(),
    ),
]


# ---- Lives that are drawn -----------------------------------------------------------------------------------------------------------


class Begun(Life):
    """Lines of session 0 over an image; the others sleep. What it writes stays in memory."""

    def __init__(self, image):
        self.log = log_of(image)
        slot = self.log.slot
        super().__init__(slot.number, slot.points[0], self.log.pairs())
        self.others = "".join(f" {point}" for point in slot.points[1:])
        # the newest record that each home has in the file, and the keys that were written since
        self.led, self.written = {(bucket, tag): a for bucket, tag, a in self.log.entries()}, set()
        self.tickets, self.states = 0, [self.kept]
        self.say("open", *self.report("open", self.others))
        for other in range(1, slot.sessions):
            self.say(f"{other} sleep", f"{other} sleep")

    def reads(self, key):
        """How many records are read from the file for this key: those of its home down to its own, or to the begin."""
        bits = self.log.shape[0]
        a, count = self.led.get((key % 2**bits, (key >> bits) % 2**15), 0), 0
        while key not in self.written and a != 0:
            a, count = self.log.previous(a) if self.log.key(a) != key else 0, count + 1
        return count

    def wait(self, reads, answer):
        """Each read takes a turn of the keeper, and a poll."""
        for left in range(reads, 0, -1):
            self.say("k turn", f"k turn rest {self.number + 1}")
            self.say("0 poll", *(["0 poll left 1"] if left > 1 else [answer, "0 poll left 0"]))

    def get(self, key):
        reads = self.reads(key)
        value = f"= {self.pairs[key]}" if key in self.pairs else "absent"
        if reads == 0:
            self.say(f"0 get {key}", f"0 get {key} {value}")
            return
        self.tickets += 1
        self.say(f"0 get {key}", f"0 get {key} pending @{self.tickets}")
        self.wait(reads, f"0 @{self.tickets} get {key} {value}")

    def put(self, word, key, number):
        """An upsert or a delete, which wait for nothing."""
        self.serial += 1
        if word == "up":
            self.pairs[key] = number
            self.say(f"0 up {key} {number}", f"0 #{self.serial} done")
        else:
            self.pairs.pop(key, None)
            self.say(f"0 del {key}", f"0 #{self.serial} done")
        self.written.add(key)

    def make(self, word, key, number):
        """An add or a max. How many records it waits for, and what it is answered in the end."""
        reads = self.reads(key)
        self.serial += 1
        value = self.pairs.get(key, 0)
        self.pairs[key] = value + number if word == "add" else max(value, number)  # (far below the limit of sums)
        answer = f"0 #{self.serial} = {self.pairs[key]}"
        self.say(f"0 {word} {key} {number}", answer if reads == 0 else f"0 #{self.serial} pending")
        self.written.add(key)
        return reads, answer

    def draw(self, dice, keys):
        word, key, number = dice.choice(("get", "up", "del", "add", "add", "max")), dice.choice(keys), dice.randrange(1000)
        if word == "get":
            self.get(key)
        elif word in ("up", "del"):
            self.put(word, key, number)
        else:
            self.wait(*self.make(word, key, number))

    def commit_of(self, dice, keys):
        """A commit: with calls in prepare and behind the point, or one that has to wait for an update."""
        kind, waiting = dice.choice(KINDS), [key for key in keys if self.reads(key) > 0]
        if waiting and dice.random() < 0.5:
            _, answer = self.make("add", dice.choice(waiting), dice.randrange(1000))
            self.begin(kind)
            self.answers.append(answer)
            self.finish(self.others)
        else:

            def update():
                self.put(dice.choice(("up", "del")), dice.choice(keys), dice.randrange(1000))

            self.commit(kind, update, update, self.others)
        self.states.append(self.kept)


def log_of(image):
    shape = shape_of(image)
    return Log(image, shape, slot_of(image, shape, newest(image)))


def drawn(image, dice, commits):
    """A life over this image, on keys that it had, and on others of their homes."""
    life, bits = Begun(image), shape_of(image)[0]
    keys = [key + (other << (15 + bits)) for key in KEYS for other in (0, 0, 1)]
    for _ in range(commits):
        for _ in range(4):
            life.draw(dice, keys)
        life.commit_of(dice, keys)
    life.draw(dice, keys)
    return life


def other_in_file(image, state, begin):
    """What a slow program finds in the file otherwise than this state: number, point of session 0 and pairs. Each open slot has to say the begin."""
    found = find(image)
    number, point, pairs = state
    told_pairs = "".join(f" {key}={pairs[key]}" for key in sorted(pairs))
    if len(found) != 1 or not re.fullmatch(rf"commit {number} begin {begin} tail \d+ points {point}( 0)*, .*, pairs{told_pairs}", found[0]):
        return f"the file holds {found}, and not {state} with begin {begin}"
    slots = [slot_of(image, shape_of(image), index) for index in (0, 1) if is_open(image, index)]
    return None if all(slot and slot.begin == begin for slot in slots) else "a slot of the file says another begin"


def other_of_life(program, path, image, life, *tool):
    """What the program answers over this image, or leaves in its file, otherwise than it has to; none where it does so."""
    with open(path, "wb") as file:
        file.write(image)
    words = {"input": spelled(whole(life.lines)), "cwd": os.path.dirname(path), "capture_output": True, "timeout": SECONDS}
    ran = subprocess.run([*tool, program, *FILE.split()], **words)
    wanted = spelled(whole(life.answers))
    if ran.stdout != wanted:
        return first_other(ran.stdout, wanted)
    return other_in_file(contents(path), life.kept, life.log.begin)


def with_garbage(image, dice):
    """The image with other bytes at each address below its begin."""
    log = log_of(image)
    at, end = log.records_at + 24, log.records_at + 24 * log.begin
    return image[:at] + dice.randbytes(end - at) + image[end:]


def other_of_two(program, path, image, dice):
    """Two lives, one over what the other leaves. With garbage below the begin the second one is answered the same, and leaves the same from the begin on."""
    if other := other_of_life(program, path, image, drawn(image, dice, 3)):
        return other
    left = contents(path)
    life, end = drawn(left, dice, 2), log_of(left).records_at + 24 * log_of(left).begin
    if other := other_of_life(program, path, left, life):
        return f"the second life: {other}"
    clean = contents(path)
    if other := other_of_life(program, path, with_garbage(left, dice), life):
        return f"the second life, over garbage: {other}"
    return None if contents(path)[end:] == clean[end:] else "the second life, over garbage, leaves another file"


# ---- Crashes ------------------------------------------------------------------------------------------------------------------------

CALL = re.compile(r'(\w+)\((\d+)(?:, "?([^",]*))?.*\) += (\d+)')
GATES = [(512 + 512 * index, bytes([OPEN])) for index in (0, 1)]


def calls_in(said):
    """The writes of the store's file, each a place and its bytes, and its syncs, each none."""
    store, at, calls = None, 0, []
    for name, file, what, result in CALL.findall(said):
        if name == "flock":
            store = file
        elif file == store and name == "lseek":
            at = int(result)
        elif file == store:
            calls.append((at, bytes.fromhex(what.replace("\\x", ""))) if name == "write" else None)
    return calls


def crashed(image, calls, at, torn):
    """The file behind a crash in the call of this number, where `torn` is none as it was written, and else with that for each byte that isn't synced.
    With it how many commits stand: their gate is synced, or it is open all the same."""
    reached = calls[: at + 1]
    synced = max((n for n, call in enumerate(calls[:at]) if call is None), default=0)
    left, stand = image, 0
    for n, call in enumerate(reached):
        if call is not None:
            place, part = call
            kept = part if n < synced or torn is None else bytes([torn]) * len(part)
            left = left.ljust(place, b"\0")[:place] + kept + left[place + len(part) :]
            stand += call in GATES and kept == part
    return left, stand


def others_of_crashes(program, path, image, dice):
    """How many crashes, and what is otherwise behind them: what stands in the file, and what one life more is answered."""
    life, said = drawn(image, dice, 2), f"{path}.calls"
    strace = ("strace", "-f", "-qq", "-xx", "-s", str(2**20), "-e", "trace=flock,lseek,write,fsync", "-o", said)
    if other := other_of_life(program, path, image, life, *strace):
        return 1, [other]
    calls = calls_in(contents(said).decode())
    sites = [(at, torn) for at in range(len(calls) + 1) for torn in (None, *TORN)]
    others = []
    for at, torn in sites:
        left, stand = crashed(image, calls, at, torn)
        other = other_in_file(left, life.states[stand], life.log.begin) or other_of_life(program, path, left, drawn(left, dice, 1))
        others += [f"crash in call {at}, torn bytes of {torn}: {other}"] * (other is not None)
    return len(sites), others


# from how many stores whose begin moves the images are, and over every how manieth of them lives are played, and crashed
STORES, PLAYED, CRASHED = 12, 4, 16


def begun_lives(program):
    """How many there are, and what is otherwise."""
    if not shutil.which("strace"):
        sys.exit("tools/rows/run: there is no strace (apt-get install strace)")
    images = [("the image by hand", BEGUN.image()), *((name, image) for name, image, first, _ in lived_images(STORES) if " begin " in first)]
    count, others = 0, []
    with tempfile.TemporaryDirectory() as folder:
        path = os.path.join(folder, STORE)
        for n, (name, image) in enumerate(images):
            dice = random.Random(n)
            if n % PLAYED == 0:
                other = other_of_two(program, path, image, dice)
                count, others = count + 3, others + [f"{name}: {other}"] * (other is not None)
            if n % CRASHED == 0:
                its_count, its_others = others_of_crashes(program, path, image, dice)
                count, others = count + its_count, [*others, *(f"{name}: {other}" for other in its_others)]
    return count, others
