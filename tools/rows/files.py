"""Stores in a file: what a script leaves in it, and what images in each of the three formats open as, sound ones and damaged ones."""
import os
import sys
from dataclasses import replace

sys.path.append(os.path.join(os.path.dirname(os.path.abspath(__file__)), "..", "openings"))
from rows import STORE, Row, told, whole
from samples import HOME, LEFT_OUT, LOGGED, NEW, ONE, SECOND, Commit, Sample, changed, in_form
from shapes import ONE as SHAPE
from shapes import TWO

FILE = f"--file {STORE}"
COMMITTED = f"{SHAPE}\n0 up 1 10 | 0 #1 done\nk commit | k commit 1\nk finish | k finished 1 points 1\n"
# under a seed the update has ended before the commit begins
UPDATED_FIRST = COMMITTED.replace("k commit ", "k finish | k finish nothing\nk commit ", 1)
OPENED = "open | open commit 1 points 1 pairs 1\n     | pair 1 10\n"
TWO_LEFT = "open | open commit 1 points 2 pairs 2\n     | pair 1 10\n     | pair 524289 20\n"
AGAIN = "0 up 1 11 | 0 #2 done\nk commit | k commit 2\nk finish | k finished 2 points 2\n"
NEW_FRONT = Sample((NEW,), ()).image()[:1536]  # the block and the slots, which is all that is written
# the second commit's slot is in the newest format, the first's as it was
SECOND_COMMIT = Commit(2, 3, 3, (2,), triples=((*HOME, 2),))


def after_again(form):
    """The image of one commit in this format, behind one commit more."""
    return Sample((replace(ONE.commits[1], form=form), SECOND_COMMIT), (*ONE.records, (SECOND + 1, 1, 11))).image()


def wiped(commits):
    """What is said where a store is made over one of so many commits."""
    return f"fkv: the file held a store of {commits}, which the new store has wiped\n"


def living(image):
    """The image of a living store of the same sizes."""
    return changed(image, (7, ord("2")))


# words that name a file, and its name
NAMED = [
    (("--file", "image"), "image"),
    (("--file=a b=c",), "a b=c"),
    (("--file", "Bücher ä"), "Bücher ä"),
    (("--file", "-"), "-"),
    (("--file=--check",), "--check"),
]

LEFT = [
    *(Row(f"a store in the file {name}", f"{SHAPE}\n", "", words=words, file=name, left=NEW_FRONT) for words, name in NAMED),
    Row("a file without a name", f"{SHAPE}\n", "refused 14 Device\n", 3, ("--file", "")),
    told("a store is made in a file", COMMITTED, FILE, left=ONE.image()),
    told("and under a seed", UPDATED_FIRST, f"{FILE} --seed 5 --check --torn 165", left=ONE.image()),
    told("a store without a commit", SHAPE, FILE, left=NEW_FRONT),
    told("a living store of small sizes", SHAPE.replace("shape", "large"), FILE, left=living(NEW_FRONT)),
    told("a living store is opened, and stays one", OPENED + AGAIN, FILE, image=living(ONE.image()), left=living(after_again(3))),
    told("a store is made over an older one, which is not cut", SHAPE, FILE, image=ONE.image(), left=NEW_FRONT + ONE.image()[1536:], complaint=wiped("1 commit")),
    told("and over one of two commits", SHAPE, FILE, image=after_again(1), complaint=wiped("2 commits")),
    told("and over one that has no commit", SHAPE, FILE, image=NEW_FRONT, left=NEW_FRONT, complaint=""),
    *(
        told(f"one more commit over format {form}", OPENED + AGAIN, FILE, image=in_form(ONE, form).image(), left=after_again(form))
        for form in (1, 2, 3)
    ),
    told(
        "records of the next version stay in the file",
        f"""
        {SHAPE}
        0 up 1 10      | 0 #1 done
        0 up 524289 20 | 0 #2 done
        k commit       | k commit 1
        0 refresh      | 0 refresh prepare 1
        k turn         | k turn in-progress 2
        0 refresh      | 0 refresh in-progress 2
        0 up 1 11      | 0 #3 done
        0 up 524289 21 | 0 #4 done
        0 up 1 12      | 0 #5 done
        k finish       | k finished 1 points 2
        """,
        FILE,
        left=LEFT_OUT.image(),
    ),
    *(
        told(
            f"a log commit names what was lost, over format {form}",
            f"{TWO_LEFT}0 up 1 13 | 0 #3 done\nk commit log | k commit 2\nk finish | k finished 2 points 3",
            FILE,
            image=in_form(LEFT_OUT, form).image(),
            left=Sample((replace(LEFT_OUT.commits[1], form=form), LOGGED.commits[1]), LOGGED.records).image(),
        )
        for form in (1, 2, 3)
    ),
    told("what is not committed is not kept", f"{OPENED}0 up 1 11 | 0 #2 done", FILE, image=ONE.image(), left=ONE.image()),
    # nothing is run, and nothing is made
    Row("a crash of a file", f"{SHAPE}\n0 up 1 10\ncrash\n", "script line 3 Mode\n", 2, tuple(FILE.split()), left=None),
    Row("a crash of a file at a call", f"{SHAPE}\ncrash 1\n", "script line 2 Mode\n", 2, tuple(FILE.split()), left=None),
    Row("a failure of a file", f"{SHAPE}\nfail 1\n", "script line 2 Mode\n", 2, tuple(FILE.split()), left=None),
    Row("a faulty line is told before a mode", f"{SHAPE}\nfail 0\n", "script line 2 Number\n", 2, tuple(FILE.split()), left=None),
    Row("a bad shape", "shape 4 6 4 2 1 0 64\n", "refused 1 BadShape\n", 2, tuple(FILE.split()), left=None),
    Row("an empty script", "", "", 0, tuple(FILE.split()), left=None),
]

# Under a seed a store in memory, one in a new file and an opened one of commit 0 are stepped alike.
LINES = ["0 up 1 10", "1 up 2 20", "0 get 1", "1 add 2 1", "0 add 2 5", "1 get 2", "k turn", "0 get 2"]
STEPPED = whole(["1 #1 done", "1 #2 = 21", "0 #1 done", "1 get 2 = 21", "k turn rest 1", "0 get 1 = 10", "0 #2 = 26", "0 get 2 = 26"])
NEW_OF_TWO = Sample((Commit(0, 1, 1, (0, 0)),), ()).image()
SEEDED = [
    Row("a seed in memory", whole([TWO, *LINES]), STEPPED, words=("--seed", "2")),
    Row("a seed over a new file", whole([TWO, *LINES]), STEPPED, words=(*FILE.split(), "--seed", "2")),
    Row(
        "a seed over an opened file",
        whole(["open", *LINES]),
        f"open commit 0 points 0 0 pairs 0\n{STEPPED}",
        words=(*FILE.split(), "--seed", "2"),
        image=NEW_OF_TWO,
    ),
]

# bytes of the image of one commit that are changed, in the first format and the newest
DAMAGED = [
    ([(0, 0)], "15 NotAStore"),
    ([(512, 0), (1024, 0)], "15 NotAStore"),
    ([(1025, 1)], "16 Damaged(Manifest, 1)"),
    ([(1032, 2)], "16 Damaged(Manifest, 1)"),
    ([(1048, 1)], "16 Damaged(Manifest, 1)"),
    ([(1086, 1)], "16 Damaged(Manifest, 1)"),
    ([(3328, 16)], "16 Damaged(Triple, 0)"),
    ([(3334, 1)], "16 Damaged(Triple, 0)"),
    ([(3336, 2)], "16 Damaged(Triple, 0)"),
    ([(5144, 1)], "16 Damaged(Record, 1)"),
    ([(5150, 2)], "16 Damaged(Record, 1)"),
    ([(5151, 32)], "16 Damaged(Record, 1)"),
    ([(5151, 64)], "16 Damaged(Link, 1)"),
    ([(5152, 2)], "16 Damaged(Link, 1)"),
]
# and of the one with records that are left out
LINKS = [
    ([(5216, 2)], "16 Damaged(Link, 4)"),
    ([(5198, 3)], "16 Damaged(Record, 3)"),
    ([(5199, 64)], "16 Damaged(Link, 4)"),
]
# changes that a store has after all
SOUND = [
    ("no commit is left but the first", [(1024, 0)], "open | open commit 0 points 0 pairs 0"),
    ("another value", [(5160, 11)], "open | open commit 1 points 1 pairs 1\n | pair 1 11"),
    (
        "each serial is spent",
        [(place, 255) for place in range(1080, 1086)],
        f"open | open commit 1 points {2**48 - 1} pairs 1\n | pair 1 10\n0 up 1 11 | 0 refused 7 SerialsSpent\n0 get 1 | 0 get 1 pending @1",
    ),
    (
        "one commit is left, and then each version is spent",
        [(1032, 253), (1033, 31)],
        """
        open     | open commit 8189 points 1 pairs 1
                 | pair 1 10
        k commit | k commit 8190
        k finish | k finished 8190 points 1
        k commit | k refused 6 VersionsSpent
        """,
    ),
]
REFUSED = [
    ("a store cut to 63 bytes", ONE.image()[:63], "15 NotAStore"),
    ("an empty file", b"", "15 NotAStore"),
    ("a text", b"shape 4 16 4 2 1 0 64\n", "15 NotAStore"),
]


def refusal(name, image, fault):
    """Nothing is written to an image that is refused."""
    return Row(name, "open\n0 get 1\n", f"refused {fault}\n", 3, tuple(FILE.split()), image, image)


def opened():
    for form in (1, 3):
        one, left_out = (in_form(sample, form).image() for sample in (ONE, LEFT_OUT))
        yield from (refusal(f"format {form}, bytes {bytes_}", changed(one, *bytes_), fault) for bytes_, fault in DAMAGED)
        yield from (refusal(f"format {form}, bytes {bytes_}", changed(left_out, *bytes_), fault) for bytes_, fault in LINKS)
        yield from (told(f"format {form}, {name}", text, FILE, image=changed(one, *bytes_)) for name, bytes_, text in SOUND)
    for form in (1, 2, 3):
        image = in_form(LEFT_OUT, form).image()
        yield told(f"a store of format {form} is opened, and stays as it is", TWO_LEFT, FILE, image=image, left=image)
    yield from (refusal(*row) for row in REFUSED)


def unmade():
    """Files that can't be opened, or can't be written."""
    for path in ("none/store", ".", ""):
        for line in ("open", SHAPE):
            yield Row(f"{line} over the file {path!r}", f"{line}\n0 get 1\n", "refused 14 Device\n", 3, ("--file", path), left=None)
    yield Row("a file that isn't there is not opened", "open\n0 get 1\n", "refused 14 Device\n", 3, tuple(FILE.split()), left=None)
    unwritten = """fkv: the file "/dev/full" could not be read or written
fkv: the system refused a call of the store's file: No space left on device (os error 28)
"""
    yield Row("a device that is full", f"{SHAPE}\n0 get 1\n", "refused 14 Device\n", 3, ("--file", "/dev/full"), complaint=unwritten)


def files():
    return [*LEFT, *SEEDED, *opened(), *unmade()]
