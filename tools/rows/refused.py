"""What is refused before anything runs: words of the program, lines of a script, and shapes."""
from rows import STORE, Row
from shapes import LARGE_ONE, ONE

SHAPE = f"{ONE}\n"
BIG = f"{LARGE_ONE}\n"

# merges are unknown words behind `shape` and `open`, whatever follows them
MERGES = ("keep 1", "min 1 2", "sub 1 2", "and 1 2", "or 1 2", "first 1 2", "keep", "min 1 x", "keep 1 2")

# the first faulty line of a script
LINES = [
    ("0 up 1 2\n", "1 Order"),
    (SHAPE + SHAPE, "2 Order"),
    (SHAPE + "crash\nopen", "3 Order"),
    (SHAPE + "open 1 2\n", "2 Order"),
    ("# a store\n\n  \n0 get 1\n", "4 Order"),
    ("  # no comment\n", "1 Order"),
    ("1\n", "1 Order"),
    (SHAPE + "\n#\n \nopen\n", "5 Order"),
    (SHAPE + "0 put 1 2", "2 Word"),
    (SHAPE + "up 0 1", "2 Word"),
    (SHAPE + "crash\r\n", "2 Word"),
    (SHAPE + " # no comment\n", "2 Word"),
    (SHAPE + "kü commit\n", "2 Word"),
    (SHAPE + "\udcff\n", "2 Word"),
    ("# a store\n\n  \n" + SHAPE + "#\n\nk tur\n", "7 Word"),
    (SHAPE + "k commit full\n", "2 Word"),
    (SHAPE + "k commit lo log\n", "2 Word"),
    (SHAPE + "9x put 1\n", "2 Word"),
    (SHAPE + " refresh\n", "2 Word"),
    (SHAPE + " \r\n", "2 Word"),
    (SHAPE + "0 finish refresh\n", "2 Word"),
    (SHAPE + "9x log -1 é\n", "2 Word"),
    (SHAPE + "k commit full log\n", "2 Word"),
    (SHAPE + "0 up 1\n", "2 Count"),
    (SHAPE + "0 up 1 x 3\n", "2 Count"),
    (SHAPE + "k\n", "2 Count"),
    (SHAPE + "3", "2 Count"),
    (SHAPE + "0 wake 1\n", "2 Count"),
    (SHAPE + "k commit log log\n", "2 Count"),
    (SHAPE + "k finish 1\n", "2 Count"),
    (SHAPE + "k turn 1\n", "2 Count"),
    (SHAPE + "9x poll 2 10\n", "2 Count"),
    (SHAPE + "crash 1 2\n", "2 Count"),
    (SHAPE + "crash 0 x\n", "2 Count"),
    (SHAPE + "fail\n", "2 Count"),
    ("shape 4 16 4 2 1 0\n", "1 Count"),
    ("large 11 16 4 2 1 0\n", "1 Count"),
    ("large 11 16 4 2 1 0 x\n", "1 Number"),
    (SHAPE + "large 11 16 4 2 1 0 64\n", "2 Order"),
    ("Large 11 16 4 2 1 0 64\n", "1 Order"),
    (BIG + "0 keep\n", "2 Count"),
    (BIG + "0 keep 1 0\n", "2 Count"),
    (BIG + "0 min 1\n", "2 Count"),
    (BIG + "0 first 1 2 3\n", "2 Count"),
    (BIG + "0 sub 1 -2\n", "2 Number"),
    (BIG + "0 or 1 18446744073709551616\n", "2 Number"),
    (BIG + "0x and 1 2\n", "2 Number"),
    (BIG + "0 xor 1 2\n", "2 Word"),
    (BIG + "0 touch 1\n", "2 Word"),
    (BIG + "keep 1\n", "2 Word"),
    *((f"{SHAPE}0 {merge}\n", "2 Word") for merge in MERGES),
    ("shape 4 2 1 3 2 k\n", "1 Count"),
    ("open 1\n", "1 Count"),
    (SHAPE + "0x up 1 2\n", "2 Number"),
    (SHAPE + "9x get 1\n", "2 Number"),
    (SHAPE + "0 up +1 2\n", "2 Number"),
    (SHAPE + "0 up 1 18446744073709551616\n", "2 Number"),
    (SHAPE + "0 up 1 99999999999999999999\n", "2 Number"),
    (SHAPE + "crash 0\n", "2 Number"),
    (SHAPE + "crash 000\n", "2 Number"),
    (SHAPE + "crash x\n", "2 Number"),
    (SHAPE + "crash -1\n", "2 Number"),
    (SHAPE + "crash 18446744073709551616\n", "2 Number"),
    (SHAPE + "fail 0\n", "2 Number"),
    (SHAPE + "0 del +1\n", "2 Number"),
    ("shape 4 16 4 2 1 0 -64\n", "1 Number"),
    ("shape 1 4 4 get 1 1 64", "1 Number"),
    ("open\n", "1 Mode"),
    # a line has at most 200 bytes, and a script at most 65,536 lines
    (SHAPE + "0 get " + "1" * 195, "2 Size"),
    (" " * 201, "1 Size"),
    ("#" * 200 + "\n" + "#" * 201, "2 Size"),
    ("\n" * 65536 + "#", "65537 Size"),
    ("#\n" * 65537, "65537 Size"),
    # and a longer one is read no further than its first faulty line can stand
    (("#" * 200 + "\n") * 65537, "65537 Size"),
]

# and of one over a store in a file
LINES_OF_FILE = [
    (SHAPE + "shape x\n", "2 Order"),
    (SHAPE + "crash x y\n", "2 Count"),
    (SHAPE + "crash x\n", "2 Number"),
    ("open\ncrash\n", "2 Mode"),
    ("open\nfail\n", "2 Count"),
    ("open\nfail 0\n", "2 Number"),
    ("open\nfail 1\n", "2 Mode"),
    *((f"open\n0 {merge}\n", "2 Word") for merge in MERGES),
]

# each size outside of its limits, one at a time
SHAPES = [
    "11 16 4 2 1 0 64",
    "4 6 4 2 1 0 64",
    "4 2 4 2 1 0 64",
    "4 2048 4 2 1 0 64",
    "4 16 3 2 1 0 64",
    "4 16 1 1 1 0 64",
    "4 16 128 2 1 0 64",
    "4 16 4 0 1 0 64",
    "4 16 4 4 1 0 64",
    "4 16 4 2 0 0 64",
    "4 16 4 2 33 0 64",
    "4 16 4 2 1 1025 64",
    "4 16 4 2 1 0 0",
    "4 16 4 2 1 0 65537",
    "18446744073709551615 16 4 2 1 0 64",
]

# sizes behind `large`: each outside of its limits
LARGE = [
    "25 16 4 2 1 0 64",
    "11 6 4 2 1 0 64",
    "11 131072 4 2 1 0 64",
    "11 16 8192 2 1 0 64",
    "11 16 4 4 1 0 64",
    "11 16 4 2 33 0 64",
    "11 16 4 2 1 16777217 64",
    "11 16 4 2 1 0 0",
    "11 16 4 2 1 0 1073741825",
    "11 16 4 2 0 0 64",
]

# and the sizes that are taken behind both words: the least of them, and the greatest small ones
BOTH = [
    "0 4 2 1 1 0 1",
    "4 16 4 2 1 0 64",
    "10 1024 64 63 32 1024 65536",
]

WORDS = [
    ("x",),
    ("",),
    ("--",  "x"),
    ("--seed",),
    ("--seed", "x"),
    ("--seed", "-1"),
    ("--seed=-1",),
    ("--seed=-0",),
    ("--seed", ""),
    ("--seed=",),
    ("--seed", "18446744073709551616"),
    ("--seed=18446744073709551616",),
    ("--seed", "--check"),
    ("--seed", "1", "--seed", "1"),
    ("--torn",),
    ("--torn", "256"),
    ("--torn=256",),
    ("--torn", "-1"),
    ("--torn=-1",),
    ("--torn", "18446744073709551616"),
    ("--torn", "1", "--torn=1"),
    ("--torn=",),
    ("--torn", "1.5"),
    ("--check=1",),
    ("--check", "true"),
    ("--check", "--check"),
    ("--check", "image"),
    ("--", "--check"),
    ("--file",),
    ("--file", "--check"),
    ("--file", "a", "--file", "b"),
    ("--fil", "a"),
    ("-c",),
    ("--help",),
    ("-h",),
    ("--version",),
    (b"\xff",),
    ("--file", b"store\xff"),
    (b"--se\xed", "1"),
]

ACCEPTED = [
    ("--",),
    ("--check",),
    ("--check", "--"),
    ("--seed", "5"),
    ("--seed=18446744073709551615",),
    ("--seed", "18446744073709551615", "--check", "--torn", "255"),
    ("--seed", "5", "--check", "--torn", "165", "--file", STORE),
    (f"--file={STORE}", "--torn=165", "--check", "--seed=5"),
    ("--torn", "1", "--seed=2", "--file", STORE, "--"),
    ("--torn=0", "--seed=0"),
    ("--torn=-0",),
    ("--torn", "+7", "--seed", "007"),
]


def refused():
    yield from (Row(f"script line {fault}", script, f"script line {fault}\n", 2) for script, fault in LINES)
    over_file = ("--file", STORE)
    yield from (Row(f"script line {fault} over a file", it, f"script line {fault}\n", 2, over_file, left=None) for it, fault in LINES_OF_FILE)
    yield from (Row(f"shape {sizes}", f"shape {sizes}\n0 get 1\n", "refused 1 BadShape\n", 2) for sizes in SHAPES)
    yield from (Row(f"large {sizes}", f"large {sizes}\n0 get 1\n", "refused 1 BadShape\n", 2) for sizes in LARGE)
    yield from (Row(f"{word} {sizes}", f"{word} {sizes}\n0 get 1\n", "0 get 1 absent\n") for word in ("shape", "large") for sizes in BOTH)
    # before the script is looked at
    yield from (Row(f"the words {words}", "0 up\n", "options\n", 2, words) for words in WORDS)
    yield from (Row(f"the words {words}", SHAPE + "0 get 1\n", "0 get 1 absent\n", 0, words) for words in ACCEPTED)
