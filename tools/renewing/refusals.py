"""Sizes that hold no more, words and files that are refused: the new file isn't there, and the old one is as it was. And what the
program says of itself."""
import fcntl
import os
import subprocess

from files import FKV_RENEW, OPTIONS, SECONDS, Pair, held, need, renew, run_of
from samples import CROWD, TWO_HOMES

# the sixteen pairs of CROWD have as many homes; the two points of TWO_HOMES are of two sessions
SIZES = [
    ("an index without a slot for each key", CROWD, "--shape 0 16 4 2 1 1 64", 3, "refused 4 IndexFull\n"),
    ("a log without a place for each pair", CROWD, "--shape 4 4 2 1 1 0 4", 3, "refused 5 LogFull\n"),
    ("fewer sessions than have points", TWO_HOMES, "--shape 4 16 4 2 1 0 64", 3, "refused 19 NoSession\n"),
    ("a page that is no power of two", CROWD, "--shape 4 15 4 2 1 0 64", 2, "refused 1 BadShape\n"),
    ("large sizes of a specified store", CROWD, "--shape 12 16 4 2 1 0 64", 2, "refused 1 BadShape\n"),
    ("sizes past the large ones", CROWD, "--large 25 16 4 2 1 0 64", 2, "refused 1 BadShape\n"),
]
# and the fitting ones beside them
FITTING = [(CROWD, "--shape 0 16 4 2 1 2 64"), (CROWD, "--shape 4 4 2 1 1 0 5"), (TWO_HOMES, "--shape 4 16 4 2 2 0 64")]
# what stands behind the two files, or in place of the second one
WORDS = [
    "third",
    "--shape 4 16 4 2 1 0",
    "--shape 4 16 4 2 1 0 64 1",
    "--shape 4 16 4 2 1 x 64",
    "--shape 4 16 4 2 1 18446744073709551616 64",
    "--shape 4 16 4 2 1 0 64 --large 12 16 4 2 1 0 64",
    "--shape 4 16 4 2 1 0 64 --shape 4 16 4 2 1 0 64",
    "--spread yes",
    "--spread --spread",
    "--help",
    "--version",
]
DEVICE = "refused 14 Device\n"


def by_sizes(folder):
    for name, sample, words, status, output in SIZES:
        pair = Pair(folder, sample.image())
        pair.need_refused(name, renew(pair.old, pair.new, *words.split()), status, output)
    for sample, words in FITTING:
        pair = Pair(folder, sample.image())
        need(words, renew(pair.old, pair.new, *words.split())[0], 0)
    return len(SIZES) + len(FITTING)


def by_words(folder):
    pair = Pair(folder, CROWD.image())
    for words in WORDS:
        pair.need_refused(words, renew(pair.old, pair.new, *words.split()), 2, OPTIONS)
    pair.need_refused("no second file", renew(pair.old, "--shape", *"4 16 4 2 1 0 64".split()), 2, OPTIONS)
    # no text: a byte that no UTF-8 has
    pair.need_refused("a word that is no text", renew(pair.old, b"\xff"), 2, OPTIONS)
    return len(WORDS) + 2


def of_itself():
    status, output, complaint = run_of([FKV_RENEW, "--version"])
    need("the version", (status, output, complaint), (0, "fkv_renew 0.1.0\n", ""))
    status, output, complaint = run_of([FKV_RENEW, "--help"])
    need("the help", (status, output.count("Usage: fkv_renew OLD NEW "), complaint), (0, 1, ""))
    return 2


def to_nobody(folder):
    """A pipe that nobody reads any more is no complaint."""
    pair = Pair(folder, CROWD.image())
    reader, writer = os.pipe()
    os.close(reader)
    run = subprocess.run([FKV_RENEW, pair.old, pair.new], stdout=writer, stderr=subprocess.PIPE, timeout=SECONDS)
    os.close(writer)
    need("a pipe that nobody reads", (run.returncode, run.stderr), (4, b""))
    return 1


def by_files(folder):
    pair = Pair(folder, CROWD.image())
    missing = os.path.join(folder, "missing")
    others = [
        ("an old file that isn't there", missing, pair.new),
        ("one that is a folder", folder, pair.new),
        ("the file itself", pair.old, pair.old),
        ("a new file in no folder", pair.old, os.path.join(missing, "new")),
    ]
    for name, old, new in others:
        pair.need_refused(name, renew(old, new), 3, DEVICE)
    with open(pair.old, "rb") as file:
        fcntl.flock(file, fcntl.LOCK_EX)
        answer = renew(pair.old, pair.new)
        pair.need_refused("a file that another process has open", answer, 3, DEVICE)
        need("why it is refused", answer[2].endswith("is in use by another process\n"), True)
    foreign = Pair(folder, b"not a store\n" * 400)
    foreign.need_refused("a foreign file", renew(foreign.old, foreign.new), 3, "refused 15 NotAStore\n")
    return len(others) + 2 + there_already(folder)


def there_already(folder):
    """A file that has the new name, or the one that the new file has until it is whole, is left as it is."""
    for name in ("new", "new.renewing"):
        pair = Pair(folder, CROWD.image())
        path = os.path.join(pair.folder, name)
        with open(path, "wb") as file:
            file.write(b"mine")
        status, output, _ = renew(pair.old, pair.new)
        need(f"a file {name} that is there", (status, output, held(path), pair.names()), (3, DEVICE, b"mine", sorted(["old", name])))
        pair.need_old(name)
    pair = Pair(folder, CROWD.image())
    os.symlink(os.path.join(folder, "missing"), pair.new)
    need("a link to nothing", (renew(pair.old, pair.new)[0], os.path.islink(pair.new)), (3, True))
    os.remove(pair.new)
    return 3


def refused(folder):
    """How many of these there are; it ends the program where one goes wrong."""
    return by_sizes(folder) + by_words(folder) + of_itself() + to_nobody(folder) + by_files(folder)
