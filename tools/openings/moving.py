"""Lives of a small living store whose begin moves: sessions of two versions, full and log commits, crashes, and a sweep that keeps what is still wanted. The bytes
below the begin are destroyed behind each commit. Each commit leaves an image, and what it holds is known from the updates alone."""
import random

from samples import INVALID, Commit, Sample, of_version
from slow_opening import ABSENT, LIVING_TEXT, Log, find, newest, shape_of, slot_of

BITS = 1
# two keys of each of three homes, and one key of another home
KEYS = (0, 1, 2, 1 << 16, (1 << 16) + 1, (1 << 16) + 2, 3)
SESSIONS = 3
# commits that a log commit may be behind its checkpoint
FAR = 6


class Life:
    """A store from its opening on, over what the lives before have left in its file."""

    def __init__(self, chosen, image, held):
        """`held` is what its file has: the records, upwards from address 1, and the pairs of the commit in force."""
        self.chosen, self.records, self.pairs = chosen, held[0], held[1]
        shape = shape_of(image)
        slot = slot_of(image, shape, newest(image))
        log = Log(image, shape, slot)
        self.last, self.lost = slot, log.lost_in_hand()
        self.index = {(bucket, tag): a for bucket, tag, a in log.entries()}
        self.area = slot.area
        self.triples = tuple((*home, address) for home, _, address in log.triples())
        self.version, self.begin = slot.number + 1, slot.begin
        del self.records[slot.tail - 1 :]
        self.fixed = slot.tail
        self.seen = [self.version] * SESSIONS
        self.now = dict(self.pairs)
        self.updates = []
        self.begun, self.sweep, self.swept = None, None, None

    def home(self, key):
        return key % 2**BITS, (key >> BITS) % 2**15

    def header(self, a):
        return self.records[a - 1][0]

    def found(self, key, down_to):
        """The newest record of a key from an address on, 0 where there is none, and whether the chain goes on below."""
        a = self.index.get(self.home(key), 0)
        while a >= max(down_to, 1):
            header, its, _ = self.records[a - 1]
            if its == key and not header & INVALID:
                return a, False
            a = header % 2**48
        return 0, a != 0

    def update(self, session, key, value):
        version = self.seen[session]
        a, _ = self.found(key, self.begin)
        home = self.home(key)
        entry = self.index.get(home, 0)
        if self.begun and version < self.version + 1 and any(self.of_version(b) > version for b in self.chain(entry)):
            return  # it would shift
        if value == "keep":
            value = self.now.get(key, ABSENT)
        if a >= self.fixed and self.of_version(a) == version:
            self.records[a - 1] = (self.header(a), key, value)
        else:
            given_up = self.chosen.random() < 0.05
            self.records.append((of_version(version) | entry | (INVALID if given_up else 0), key, value))
            if given_up:
                return
            self.index[home] = len(self.records)
        self.updates.append((version, key, value))
        self.now[key] = value

    def of_version(self, a):
        return (self.header(a) >> 48) % 2**13

    def chain(self, a):
        while a >= self.fixed:
            yield a
            a = self.header(a) % 2**48

    def swept_on(self):
        """The next record of the sweep is passed, or its key is kept."""
        if self.sweep is None:
            if self.last.start > self.begin and self.swept is None:
                self.sweep = self.begin
                self.to = self.last.start
            return
        if self.sweep >= self.to:
            self.sweep, self.swept = None, self.to
            return
        header, key, value = self.records[self.sweep - 1]
        if header & INVALID or value == ABSENT or self.found(key, self.to) != (0, True):
            self.sweep += 1
        else:
            self.update(self.chosen.randrange(SESSIONS), key, "keep")

    def commit_on(self):
        """The next phase of a commit. The image, and what it holds, where it is finished."""
        if self.begun is None:
            if any(version != self.version for version in self.seen):
                return None
            checkpoint = self.last.checkpoint
            full = self.chosen.random() < 0.3 or self.version - checkpoint > FAR or len(self.lost) > 3
            begin = self.begin
            if self.swept is not None and (full or self.swept <= self.last.start):
                begin = self.swept
            self.begun = (full, begin, len(self.records) + 1)
            return None
        if any(version == self.version for version in self.seen):
            return None
        return self.finish(*self.begun)

    def finish(self, full, begin, first):
        number, tail = self.version, len(self.records) + 1
        if full:
            self.area = 1 - self.area
            self.triples = tuple((*home, a) for home, a in sorted(self.index.items()))
        checkpoint = (first, number, ()) if full else (self.last.start, self.last.checkpoint, tuple(self.lost))
        commit = Commit(
            number,
            checkpoint[0],
            tail,
            (0,) * SESSIONS,
            triples=self.triples,
            area=self.area,
            checkpoint=checkpoint[1],
            lost=checkpoint[2],
            form=3 if begin == 1 else 4,
            begin=begin,
        )
        for version, key, value in self.updates:
            if version <= number:
                self.pairs[key] = value
        self.updates = [it for it in self.updates if it[0] > number]
        if begin > self.begin:
            self.swept = None
        self.begin, self.begun, self.fixed, self.version = begin, None, tail, number + 1
        for a in range(1, begin):
            self.records[a - 1] = tuple(self.chosen.choice((0, 2**64 - 1, self.chosen.randrange(2**64))) for _ in range(3))
        above = [(self.chosen.randrange(2**64), 1, 1) for _ in range(self.chosen.randrange(3))]
        image = Sample((commit,), (*self.records, *above), bits=BITS, overflow=4, text=LIVING_TEXT).image()
        self.last = slot_of(image, shape_of(image), newest(image))
        if full:
            self.lost = []
        return image, number, begin, tail

    def step(self):
        """One step of somebody. What a finished commit leaves, if one is."""
        dice, session = self.chosen.random(), self.chosen.randrange(SESSIONS)
        if dice < 0.3:
            value = ABSENT if self.chosen.random() < 0.5 else self.chosen.randrange(100)
            self.update(session, self.chosen.choice(KEYS), value)
        elif dice < 0.5:
            self.seen[session] = self.version + 1 if self.begun else self.version
        elif dice < 0.65:
            return self.commit_on()
        else:
            self.swept_on()
        return None


NEW = Sample((Commit(0, 1, 1, (0,) * SESSIONS),), (), bits=BITS, overflow=4, text=LIVING_TEXT)


def lived_images(lives):
    """The images that so many stores leave, each with a name, and how its answer begins and ends."""
    for seed in range(lives):
        chosen = random.Random(seed)
        image = NEW.image()
        life = Life(chosen, image, ([], {}))
        for _ in range(600):
            left = life.step()
            if left is not None:
                image, number, begin, tail = left
                moved = f" begin {begin}" * (begin != 1)
                pairs = "".join(f" {key}={value}" for key, value in sorted(life.pairs.items()) if value != ABSENT)
                yield f"life {seed}, commit {number}", image, f"commit {number}{moved} tail {tail} points", f", pairs{pairs}"
            if chosen.random() < 0.01:
                life = Life(chosen, image, (life.records, life.pairs))


def main():
    """Whether the slow program finds what the stores hold."""
    images, moved = 0, 0
    for name, image, first, last in lived_images(200):
        found = find(image)
        if len(found) != 1 or not found[0].startswith(first) or not found[0].endswith(last):
            raise SystemExit(f"{name}: {found} for {first} ..{last}")
        images, moved = images + 1, moved + (" begin " in first)
    print(f"{images} images of lives, {moved} of them with a begin that moved: each is what its updates say")


if __name__ == "__main__":
    main()
