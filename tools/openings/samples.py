"""Images written by hand in each of the four formats, and images of these with a byte or two changed."""
import random
from dataclasses import dataclass, replace

from slow_opening import ABSENT, BEGIN, LIVING_TEXT, MARKS, OPEN, PLACES, SPECIFIED_TEXT, most_triples

FIRST = 1 << 48  # the header of a record of version 1
SECOND = 2 << 48
THIRD = 3 << 48
INVALID = 1 << 62


def of_version(version):
    """The header of a record of this version that leads nowhere."""
    return ((version - 1) % MARKS + 1) << 48


def spelled(*numbers):
    return b"".join(number.to_bytes(8, "little") for number in numbers)


@dataclass(frozen=True)
class Commit:
    """What a slot says."""

    number: int
    start: int
    tail: int
    points: tuple
    triples: tuple = ()  # bucket, tag and address
    area: int = None  # by default that of the number's parity
    checkpoint: int = None  # by default the commit's own
    lost: tuple = ()  # end and version
    form: int = 3
    begin: int = 1  # in the fourth format alone

    def place(self):
        return 512 + 512 * (self.number % 2)

    def its_area(self):
        return self.number % 2 if self.area is None else self.area

    def slot(self):
        numbers = [OPEN, self.number, self.start, self.tail, len(self.triples), self.its_area(), len(self.points)]
        numbers += self.points
        places, checkpoint = PLACES[self.form]
        if checkpoint is not None:
            own = self.number if self.checkpoint is None else self.checkpoint
            numbers += [0] * (checkpoint - len(numbers))
            numbers += [own, len(self.lost), *(number for its in self.lost for number in its)]
        if self.form == 4:
            numbers += [0] * (BEGIN - len(numbers)) + [self.begin]
        numbers += [0] * (63 - len(numbers))
        return spelled(*numbers, 0 if self.form == 1 else self.form)


@dataclass(frozen=True)
class Sample:
    """A store, to be spelled as an image."""

    commits: tuple
    records: tuple  # header, key and value, from address 1 on
    bits: int = 4
    overflow: int = 0
    text: int = SPECIFIED_TEXT

    def shape(self):
        return (self.bits, 16, 4, 2, len(self.commits[0].points), self.overflow, 64)

    def area_place(self, area):
        return 1536 + 16 * most_triples(self.shape()) * area

    def image(self):
        image = bytearray(self.area_place(2) + 24 + 24 * len(self.records))

        def put(at, part):
            image[at : at + len(part)] = part

        put(0, spelled(self.text, *self.shape()))
        for commit in self.commits:
            put(commit.place(), commit.slot())
            triples = [spelled(bucket | tag << 32, address) for bucket, tag, address in commit.triples]
            put(self.area_place(commit.its_area()), b"".join(triples))
        put(self.area_place(2) + 24, b"".join(spelled(*record) for record in self.records))
        return bytes(image)

    def front(self):
        """Where the numbers of its block and its slots stand."""
        places = set(range(64))
        for commit in self.commits:
            for start, end in [(0, 80), (120, 168), (312, 360), (500, 512)]:
                places |= set(range(commit.place() + start, commit.place() + end))
            if commit.form == 4:
                places |= set(range(commit.place() + 8 * BEGIN - 8, commit.place() + 8 * BEGIN + 16))
        return sorted(places)

    def values(self):
        """Where the values of its records stand."""
        return [self.area_place(2) + 24 * record + 16 for record in range(1, len(self.records) + 1)]

    def log(self):
        """Where those of its triples stand, and the headers and keys of its records."""
        places = set()
        for commit in self.commits:
            area = self.area_place(commit.its_area())
            places |= set(range(area, area + 16 * len(commit.triples)))
        for record in range(1, len(self.records) + 1):
            at = self.area_place(2) + 24 * record
            places |= set(range(at, at + 16))
        return sorted(places)


def changed(image, *changes):
    """The image with these bytes changed, each a place and a byte."""
    other = bytearray(image)
    for at, byte in changes:
        other[at] = byte
    return bytes(other)


# keys 1 and 524289 have one home where there are 16 buckets; keys 2 and 17 have others
NEW = Commit(number=0, start=1, tail=1, points=(0,))
HOME = (1, 0)
ONE = Sample(
    commits=(NEW, Commit(1, 2, 2, (1,), triples=((*HOME, 1),))),
    records=((FIRST, 1, 10),),
)
LEFT_OUT = Sample(
    commits=(NEW, Commit(1, 3, 5, (2,), triples=((*HOME, 4),))),
    records=((FIRST, 1, 10), (FIRST + 1, 524289, 20), (SECOND + 2, 1, 12), (SECOND + 3, 524289, 21)),
)
LOGGED = Sample(
    commits=(
        LEFT_OUT.commits[1],
        Commit(2, 3, 6, (3,), triples=((*HOME, 4),), area=1, checkpoint=1, lost=((5, 2),)),
    ),
    records=(*LEFT_OUT.records, (SECOND + 2, 1, 13)),
)
DELETED = Sample(
    commits=(LEFT_OUT.commits[1], replace(LOGGED.commits[1], tail=7)),
    records=(*LOGGED.records, (SECOND + 5, 524289, ABSENT)),
)
TWO_HOMES = Sample(
    commits=(
        Commit(3, 4, 4, (5, 6), triples=((2, 0, 3), (1, 1, 2), (*HOME, 1))),
        Commit(4, 4, 10, (7, 8), triples=((2, 0, 3), (1, 1, 2), (*HOME, 1)), area=1, checkpoint=3, lost=((7, 4),)),
    ),
    records=(
        (FIRST, 1, 10),
        (SECOND, 17, 20),
        (THIRD, 2, 30),
        (4 * FIRST + 3, 2, 31),
        (4 * FIRST + 1, 524289, 11),
        (4 * FIRST + 2 + INVALID, 17, 21),
        (4 * FIRST + 3, 2, 32),
        (4 * FIRST + 7, 2, 33),
        (5 * FIRST + 8, 2, 34),
    ),
)
LIVES = Sample(
    commits=(
        Commit(3, 1, 4, (0,), checkpoint=0, lost=((2, 2), (3, 3)), area=0),
        Commit(2, 1, 3, (0,), checkpoint=0, lost=((2, 2),), area=0),
    ),
    records=((SECOND, 1, 1), (THIRD, 1, 1), (4 * FIRST, 1, 1)),
)
# a living store whose commit lies 8,188 behind its checkpoint, one less than it may: the scan has versions 112 to 8301, and marks 1 to 110 are
# those of 8192 to 8301
MARKED = Sample(
    commits=(Commit(8300, 3, 9, (7,), triples=((*HOME, 1), (2, 0, 2)), area=0, checkpoint=112, lost=((7, 8193),)),),
    records=(
        (FIRST, 1, 10),
        (of_version(50), 2, 20),
        (of_version(8191) + 1, 1, 11),
        (of_version(8192) + 3, 1, 12),
        (of_version(8193) + 2, 2, 21),
        (of_version(112), 17, 30),
        (of_version(8300) + 4, 524289, 40),
        (of_version(8301), 3, 50),
    ),
    text=LIVING_TEXT,
)


def marked(number, version):
    """That store as if its commit had this number, and its sixth record this version."""
    (commit,), records = MARKED.commits, list(MARKED.records)
    records[5] = (of_version(version), *records[5][1:])
    return replace(MARKED, commits=(replace(commit, number=number),), records=tuple(records))


MARKED_WHOLE = "commit 8300 tail 9 points 7, checkpoint 112 from 3 triples 2 area 0, lost 7:8193 9:8301, entries 1.0:7 1.1:6 2.0:2, pairs 1=12 2=20 17=30 524289=40"
# eight homes in each of two buckets, one more than a bucket has slots
CROWD = Sample(
    commits=(Commit(1, 1, 17, (16,), checkpoint=0, area=0),),
    records=tuple((FIRST, key, 1) for key in range(16)),
    bits=1,
    overflow=2,
)
# fourteen in each: a key of the other bucket is one too many
FULL = replace(
    CROWD,
    commits=(Commit(1, 1, 29, (28,), checkpoint=0, area=0),),
    records=tuple((FIRST, key, 1) for key in range(28)),
)

# fifteen in one
CROWDED = replace(
    CROWD,
    commits=(Commit(1, 1, 16, (15,), checkpoint=0, area=0),),
    records=tuple((FIRST, 2 * key, 1) for key in range(15)),
    overflow=1,
)
# a triple for each of the 28 homes, as many as there is room for
TRIPLES = replace(FULL, commits=(Commit(1, 29, 29, (28,), triples=tuple((key % 2, key // 2, key + 1) for key in range(28))),))


# a living store whose log begins at address 4. Homes 2.0 and 5.0 are dead below it: their triples lead there, and so do the first records that
# they have again. These are lost, and those behind them lead nowhere, as a store writes them that was opened between
LATER = Commit(5, 7, 11, (9,), triples=((2, 0, 2), (*HOME, 6), (3, 0, 5), (5, 0, 3)), form=4, begin=4)
BEGUN = Sample(
    commits=(LATER, replace(LATER, number=6, tail=14, points=(12,), area=1, checkpoint=5, lost=((11, 6),))),
    records=(
        (0, 0, 0),
        (2**64 - 1, 2**64 - 1, 2**64 - 1),
        (of_version(2) + INVALID + 2, 77, 5),
        (of_version(3) + 1, 1, 10),
        (of_version(3), 3, 30),
        (of_version(4) + 4, 524289, 11),
        (of_version(5) + 6, 1, 12),
        (of_version(6) + 2, 2, 21),
        (of_version(6) + 3, 5, 51),
        (of_version(5) + 5 + INVALID, 3, 31),
        (of_version(6), 2, 22),
        (of_version(6), 5, 52),
        (of_version(7) + 12, 5, ABSENT),
    ),
    text=LIVING_TEXT,
)
BEGUN_WHOLE = (
    "commit 6 begin 4 tail 14 points 12, checkpoint 5 from 7 triples 4 area 1, lost 11:6 14:7, entries 1.0:7 2.0:11 3.0:5 5.0:12, "
    "pairs 1=12 2=22 3=30 5=52 524289=11"
)


def in_form(sample, form):
    """The sample with all its slots in this format."""
    return replace(sample, commits=tuple(replace(commit, form=form) for commit in sample.commits))


SAMPLES = [
    *((f"one commit, format {form}", in_form(ONE, form)) for form in (1, 2, 3)),
    *((f"records left out, format {form}", in_form(LEFT_OUT, form)) for form in (1, 2, 3)),
    *((f"a log commit, format {form}", in_form(LOGGED, form)) for form in (2, 3)),
    ("a deleted key", DELETED),
    ("four homes", TWO_HOMES),
    ("three lives", LIVES),
    *((f"{name} of a living store", replace(sample, text=LIVING_TEXT)) for name, sample in (("a log commit", LOGGED), ("four homes", TWO_HOMES), ("three lives", LIVES))),
    ("two full buckets", CROWD),
    ("two overflow buckets that are full", FULL),
    ("marks that come again", MARKED),
    ("a log that begins later", BEGUN),
]

TABLE = [
    ("one", ONE, "commit 1 tail 2 points 1, checkpoint 1 from 2 triples 1 area 1, lost, entries 1.0:1, pairs 1=10"),
    (
        "left out",
        LEFT_OUT,
        "commit 1 tail 5 points 2, checkpoint 1 from 3 triples 1 area 1, lost 5:2, entries 1.0:2, pairs 1=10 524289=20",
    ),
    (
        "logged",
        LOGGED,
        "commit 2 tail 6 points 3, checkpoint 1 from 3 triples 1 area 1, lost 5:2, entries 1.0:5, pairs 1=13 524289=20",
    ),
    (
        "deleted",
        DELETED,
        "commit 2 tail 7 points 3, checkpoint 1 from 3 triples 1 area 1, lost 5:2, entries 1.0:6, pairs 1=13",
    ),
    (
        "two homes",
        TWO_HOMES,
        "commit 4 tail 10 points 7 8, checkpoint 3 from 4 triples 3 area 1, lost 7:4 10:5, entries 1.0:1 1.1:2 2.0:8, "
        "pairs 1=10 2=33 17=20",
    ),
    ("lives", LIVES, "commit 3 tail 4 points 0, checkpoint 0 from 1 triples 0 area 0, lost 2:2 3:3 4:4, entries, pairs"),
    (
        "crowd",
        CROWD,
        "commit 1 tail 17 points 16, checkpoint 0 from 1 triples 0 area 0, lost, entries "
        + " ".join(f"{bucket}.{tag}:{2 * tag + bucket + 1}" for bucket in (0, 1) for tag in range(8))
        + ", pairs "
        + " ".join(f"{key}=1" for key in range(16)),
    ),
    ("one overflow bucket", replace(CROWD, overflow=1), "Full 1"),
    ("no overflow bucket", replace(CROWD, overflow=0), "Full 0"),
    ("a home more than an overflow bucket has slots", CROWDED, "Full 0"),
    ("marks that come again", MARKED, MARKED_WHOLE),
    ("a mark that no version of the window has", marked(8300, 111), "Record 6"),
    ("the mark of the next version", marked(8300, 8301), MARKED_WHOLE.replace("1.1:6 ", "").replace("17=30 ", "")),
    ("the same images of a specified store", replace(MARKED, text=SPECIFIED_TEXT), "Manifest 0"),
    ("a commit past the window of its checkpoint", marked(8302, 112), "Manifest 0"),
    ("a log that begins later", BEGUN, BEGUN_WHOLE),
    (
        "as many triples as slots",
        TRIPLES,
        "commit 1 tail 29 points 28, checkpoint 1 from 29 triples 28 area 1, lost, entries "
        + " ".join(f"{bucket}.{tag}:{2 * tag + bucket + 1}" for bucket in (0, 1) for tag in range(14))
        + ", pairs "
        + " ".join(f"{key}=1" for key in range(28)),
    ),
]


def changed_images():
    """Each sample with one byte of its numbers changed, with two, with another key or value, and cut short. The same ones in
    each run."""
    chosen = random.Random(1)
    for name, sample in SAMPLES:
        image = sample.image()
        for places in (sample.front(), sample.log()):
            for at in chosen.choices(places, k=45):
                byte = image[at] ^ chosen.choice((1, 2, 3, 7, 0x40, 0xA5))
                yield f"{name}: byte {at} is {byte}", changed(image, (at, byte))
        for _ in range(20):
            first, second = ((at, chosen.randrange(8)) for at in chosen.sample(sample.log(), 2))
            yield f"{name}: bytes {first} and {second}", changed(image, first, second)
        for record in chosen.choices(range(len(sample.records)), k=10):
            at = sample.area_place(2) + 24 * (record + 1) + 8
            yield f"{name}: key of record {record + 1}", changed(image, (at, chosen.randrange(64)))
        for at in chosen.choices(sample.values(), k=5):
            value = spelled(chosen.choice((ABSENT, chosen.randrange(2**64))))
            yield f"{name}: value {at}", image[:at] + value + image[at + 8 :]
        for length in chosen.sample(sample.front() + sample.log(), 5):
            yield f"{name}: {length} bytes", image[:length]
