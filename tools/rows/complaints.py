"""Complaints: the line on standard error that says in words why a run ended as it did. rows.py counts these lines for each row; here
stands what they say."""
from files import FILE
from rows import Row
from samples import NEW, ONE, Sample, changed
from shapes import LARGE_ONE, ONE as SHAPE

USAGE = """\
fkv 0.1.0 plays a script from standard input over one store, and prints the answers, one a line

Usage: fkv [--seed N | --threads] [--check] [--torn B] [--file PATH] < SCRIPT

Options:
  --seed N     Interleaves neighbouring calls step by step; a generator with seed N picks who is next
  --threads    Plays each session's lines on a thread of their own, and the keeper's on another
  --check      Says after each crash's report whether the recovered store equals a replay
  --torn B     A crash sets to B, 0 to 255, each byte that wasn't synced; 0 by default
  --file PATH  Keeps the store in this file; a line that makes a store wipes an older one in it

Lines of a script, the first of which makes or opens the store:
  shape K P F M S O D       Makes a store: 2^K buckets, pages of P records, F of them in memory and M of these mutable,
                            S sessions, O overflow buckets, D pages of the log in all
  large K P F M S O D       The same with sizes beyond those of shape
  open                      Opens the store in the file
  N up K V, N add K V       Session N, from 0, sets key K to V; adds V
  N max K V, N del K        Raises it to V; deletes it
  N get K                   Reads it
  N keep K                  Behind large alone: leaves it as it is, and prints it
  N min K V, N sub K V      Behind large alone: lowers it to V; takes V off, down to 0
  N and K V, N or K V       Behind large alone: keeps the bits that both have; sets those of V
  N first K V               Behind large alone: sets it to V if it has no value
  N refresh, N poll         Sees how far the store has come; tries what is pending once more
  N sleep, N wake           Nobody waits for the session; it comes back
  k commit, k commit log    Begins a commit; one that copies no index
  k commit trim             Behind large alone: a full one, behind which turns go over the log's front
  k turn, k finish          A turn of the keeper; turns up to a commit's end
  crash, crash J, fail J    Crashes and recovers; in the J-th call of the device; that call and all later ones fail

Status: 0; 1 if a check differs; 2 if words, a line or sizes are refused; 3 if a store is; 4 if memory or a stream failed
"""
MOST = 2**64 - 1

OPTIONS = [
    (("x",), 'the word "x" is unknown'),
    (("--", "--check"), 'the word "--check" is unknown'),
    (("y" * 99,), f'the word "{"y" * 40}.." is unknown'),
    (("a\n",), 'the word "a\\n" is unknown'),
    (("--help",), 'the word "--help" is unknown'),
    (("--version",), 'the word "--version" is unknown'),
    (("--seed",), "--seed needs a value"),
    (("--file", "--check"), '--file needs a value, and "--check" is none'),
    (("--seed", "-1"), '--seed needs a value, and "-1" is none'),
    (("--seed", "x"), f'--seed needs a number from 0 to {MOST}, and "x" is none'),
    (("--torn=256",), '--torn needs a number from 0 to 255, and "256" is none'),
    (("--check=1",), "--check takes no value"),
    (("--file", "a", "--file", "b"), "--file stands twice"),
    ((b"\xff",), "a word is no UTF-8 text"),
]

SIZES = [
    ("11 16 4 2 1 0 64", "K, the bucket bits, is 11, and has to be from 0 to 10"),
    ("4 6 4 2 1 0 64", "P, the records of a page, is 6, and has to be a power of two from 4 to 1024"),
    ("4 16 128 2 1 0 64", "F, the frames, is 128, and has to be a power of two from 2 to 64"),
    ("4 16 4 4 1 0 64", "M, the mutable pages, is 4, and has to be from 1 to 3"),
    ("4 16 4 2 33 0 64", "S, the sessions, is 33, and has to be from 1 to 32"),
    ("4 16 4 2 1 1025 64", "O, the overflow buckets, is 1025, and has to be from 0 to 1024"),
    ("4 16 4 2 1 0 0", "D, the pages on the device, is 0, and has to be from 1 to 65536"),
    ("11 6 4 2 1 0 0", "K, the bucket bits, is 11, and has to be from 0 to 10"),
]

LARGE_SIZES = [
    ("25 16 4 2 1 0 64", "the size K, the bucket bits, is 25, and has to be from 0 to 24"),
    ("11 131072 4 2 1 0 64", "the size P, the records of a page, is 131072, and has to be a power of two from 4 to 65536"),
    ("11 16 8192 2 1 0 64", "the size F, the frames, is 8192, and has to be a power of two from 2 to 4096"),
    ("11 16 4 2 1 16777217 64", "the size O, the overflow buckets, is 16777217, and has to be from 0 to 16777216"),
    ("11 16 4 2 1 0 1073741825", "the size D, the pages on the device, is 1073741825, and has to be from 1 to 1073741824"),
]

SESSION = "up, del, add, max, get, refresh, poll, sleep or wake"
LARGE_SESSION = "up, del, add, max, get, keep, min, sub, and, or, first, refresh, poll, sleep or wake"
HEAD = "a session's number, k, crash or fail"

# what stands behind `shape`, and the complaint of it
LINES = [
    ("#" * 201, "Size", "it has more than 200 bytes"),
    ("open", "Order", '"open" opens a store, which the first line alone does'),
    ("put 1", "Word", f'"put" is unknown; this place takes {HEAD}'),
    ("k\xfc turn", "Word", f'"k\\xc3\\xbc" is unknown; this place takes {HEAD}'),
    ("0 put 1", "Word", f'"put" is unknown; this place takes {SESSION}'),
    ("k tur", "Word", '"tur" is unknown; this place takes commit, turn or finish'),
    ("k commit full", "Word", '"full" is unknown; this place takes log or nothing'),
    ("k commit trim", "Word", '"trim" is unknown; this place takes log or nothing'),
    ("k", "Count", '"k" takes a verb, and has 0 words behind it'),
    ("0 up 1", "Count", '"up" takes two numbers, and has 1 word behind it'),
    ("0 poll 1 2", "Count", '"poll" takes no word, and has 2 words behind it'),
    ("crash 1 2", "Count", '"crash" takes the number of a call or nothing, and has 2 words behind it'),
    ("0 up 1 +2", "Number", f'"+2" is no number from 0 to {MOST}'),
    ("0x up 1 2", "Number", f'"0x" is no number from 0 to {MOST}'),
    (f"0 get {2**64}", "Number", f'"{2**64}" is no number from 0 to {MOST}'),
    ("fail 0", "Number", f'"0" is no number from 1 to {MOST}'),
]

# and of lines behind `large`
LARGE_LINES = [
    ("0 put 1", "Word", f'"put" is unknown; this place takes {LARGE_SESSION}'),
    ("k commit full", "Word", '"full" is unknown; this place takes log, trim or nothing'),
    ("0 min 1", "Count", '"min" takes two numbers, and has 1 word behind it'),
    ("0 keep 1 2", "Count", '"keep" takes one number, and has 2 words behind it'),
    ("k commit trim 1", "Count", '"commit" takes log, trim or nothing, and has 2 words behind it'),
    (f"0 first 1 {2**64}", "Number", f'"{2**64}" is no number from 0 to {MOST}'),
]

LINES_OF_FILE = [("crash", '"crash" is for a store in memory: not with --file'), ("fail 1", '"fail" is for a store in memory: not with --file')]

NOT_THERE = "can't be opened: No such file or directory (os error 2)"
# a path of 250 bytes, of which the last 200 are told
LONG_PATH = "a" * 120 + "/" + "b" * 129

# files, the line that opens the store, what is printed, and the complaint of the file
TEXT = b"not a store\n"
FILES = [
    (None, "open", "14 Device", NOT_THERE),
    (TEXT, SHAPE, "14 Device", "holds something that is no store, and is left as it is"),
    (TEXT, "open", "15 NotAStore", "holds no store"),
    (b"\0" * 1535 + b"\1", SHAPE, "14 Device", "holds something that is no store, and is left as it is"),
    (b"FKVSTOR" + b"\0" * 2000, SHAPE, "14 Device", "holds something that is no store, and is left as it is"),
    (changed(ONE.image(), (3334, 1)), "open", "16 Damaged(Triple, 0)", "can't be used: the image is damaged: triple 0"),
]

NEW_FRONT = Sample((NEW,), ()).image()[:1536]
# and files that a store may lie in, with what it leaves of them
TAKEN = [
    (b"", NEW_FRONT),
    (b"\0" * 20, NEW_FRONT),
    (b"\0" * 1536 + TEXT, NEW_FRONT + TEXT),
    (b"FKVSTOR1" + b"\1" * 2000, NEW_FRONT + b"\1" * 472),
    (b"FKVSTOR2" + b"\1" * 2000, NEW_FRONT + b"\1" * 472),
]


def complained(name, script, wanted, status, complaint, behind="", **more):
    return Row(name, script, wanted, status, complaint=f"fkv: {complaint}\n{behind}", **more)


def complaints():
    for words, complaint in OPTIONS:
        yield complained(f"the words {words}", "", "options\n", 2, complaint, USAGE, words=words)
    for sizes, complaint in SIZES:
        yield complained(f"the sizes {sizes}", f"shape {sizes}\n", "refused 1 BadShape\n", 2, f"the size {complaint}")
    for sizes, complaint in LARGE_SIZES:
        yield complained(f"the sizes {sizes} of a living store", f"large {sizes}\n", "refused 1 BadShape\n", 2, complaint)
    for line, kind, complaint in LINES:
        yield complained(f"the line {line}", f"{SHAPE}\n{line}\n", f"script line 2 {kind}\n", 2, f"line 2 of the script: {complaint}")
    for line, kind, complaint in LARGE_LINES:
        yield complained(f"the line {line} of a living store", f"\n# large\n{LARGE_ONE}\n{line}\n", f"script line 4 {kind}\n", 2, f"line 4 of the script: {complaint}")
    for line, complaint in LINES_OF_FILE:
        script = f"{SHAPE}\n{line}\n"
        yield complained(f"the line {line} over a file", script, "script line 2 Mode\n", 2, f"line 2 of the script: {complaint}", words=tuple(FILE.split()), left=None)
    first = "line 1 of the script: "
    yield complained("no opening", "0 get 1\n", "script line 1 Order\n", 2, f'{first}"0" opens no store, and the first line has to: shape, large or open')
    yield complained("an opening in memory", "open\n", "script line 1 Mode\n", 2, f'{first}"open" needs a store in a file: --file PATH')
    yield complained("too many lines", "\n" * 65536 + "#", "script line 65537 Size\n", 2, "line 65537 of the script: a script has at most 65536 lines")
    yield complained("a folder", "open\n", "refused 14 Device\n", 3, 'the file "." can\'t be opened: Is a directory (os error 21)', words=("--file", "."))
    for image, line, fault, complaint in FILES:
        name = f"{line} over a file that begins with {image and image[:12]}"
        yield complained(name, f"{line}\n", f"refused {fault}\n", 3, f'the file "store" {complaint}', words=tuple(FILE.split()), image=image, left=image)
    for image, left in TAKEN:
        yield Row(f"a store is made over {image[:12]}", f"{SHAPE}\n", "", 0, tuple(FILE.split()), image, left, complaint="")
    for path, shown in ((LONG_PATH, f"..{LONG_PATH[50:]}"), (LONG_PATH[50:], LONG_PATH[50:])):
        for line in ("open", SHAPE):
            name = f"{line} over a path of {len(path)} bytes"
            yield complained(name, f"{line}\n", "refused 14 Device\n", 3, f'the file "{shown}" {NOT_THERE}', words=("--file", path))
    failed = "a call of the store's device failed: until a crash or a new opening nothing more is asked of it, and commits are refused"
    script = f"{SHAPE}\n0 up 1 10\nk commit\nfail 1\nk finish\nk turn\ncrash\n"
    answers = "0 #1 done\nk commit 1\nk refused 14 Device\nk refused 13 Broken\ncrash commit 0 points 0 pairs 0\n"
    yield complained("a device that fails", script, answers, 0, failed)
    script += "0 up 1 10\nk commit\nk finish\n"
    answers += "0 #1 done\nk commit 1\nk finished 1 points 1\n"
    yield complained("a device that fails before a crash, and a commit after it", script, answers, 0, failed)
