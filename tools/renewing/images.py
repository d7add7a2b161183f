"""Stored images: what `fkv` opens is renewed with the same pairs and points, and what it refuses is refused so."""
from files import Pair, held, need, played, renew
from samples import CROWD, TABLE, TWO_HOMES, changed_images
from tables import rows

# of the images with bytes changed one in so many
EACH = 16
# the last commit of a store, by the text of its image
LAST = {b"FKVSTOR1": 8190, b"FKVSTOR2": 2**45 - 2}
# the text of a new store, by the word in front of its sizes
TEXTS = {"--shape": b"FKVSTOR1", "--large": b"FKVSTOR2"}


def sizes_of(image):
    return [int.from_bytes(image[at : at + 8], "little") for at in range(8, 64, 8)]


def bytes_to(sizes, tail):
    """Where the log of a store of these sizes ends, or what stands before its areas if the log has no record."""
    if tail == 1:
        return 1536
    return 1536 + 2 * 16 * 7 * (2 ** sizes[0] + sizes[5]) + 24 * tail


def told(answer):
    """The number, tail, points and pairs of an opened store, from a line that tells them."""
    words = answer.replace(",", " ,").split()
    number, tail = int(words[1]), int(words[words.index("tail") + 1])
    points = words[words.index("points") + 1 : words.index(",")]
    pairs = [tuple(map(int, word.split("="))) for word in words[words.index("pairs") + 1 :]]
    return number, tail, points, pairs


def opened(number, points, pairs):
    return [f"open commit {number} points {' '.join(points)} pairs {len(pairs)}", *(f"pair {key} {value}" for key, value in pairs)]


def spread(key):
    """The word under which the library lays a key: one to one."""
    word = (key ^ key >> 32) * 11400714819323198485 % 2**64
    return word ^ word >> 32


def saved(old, tail, number, new, pairs, texts):
    """What is printed of a renewal from the one sizes to the others, of images that begin with these texts."""
    return (
        f"renewed pairs {len(pairs)}\n"
        f"records {tail - 1} now {len(pairs)}\n"
        f"bytes {bytes_to(old, tail)} now {bytes_to(new, len(pairs) + 1)}\n"
        f"commits left {LAST[texts[0]] - number} now {LAST[texts[1]] - 1}\n"
    )


def renews(folder, name, image, answer, words=(), is_spread=False):
    """A store of which this is told is renewed, by sizes that the words give or by its own, with its keys as they are or spread."""
    pair = Pair(folder, image)
    number, tail, points, pairs = told(answer)
    need(f"{name}: the old store", played(pair.old, "open\n"), (0, opened(number, points, pairs)))
    old = sizes_of(image)
    new = list(map(int, words[1:])) or old
    flag = ["--spread"] if is_spread else []
    texts = image[:8], TEXTS[words[0]] if words else image[:8]
    need(name, renew(pair.old, pair.new, *words, *flag), (0, saved(old, tail, number, new, pairs, texts), ""))
    need(f"{name}: the folder", pair.names(), ["new", "old"])
    need(f"{name}: the bytes of the new file", len(held(pair.new)), bytes_to(new, len(pairs) + 1))
    pair.need_old(name)
    more = ["0"] * (new[4] - len(points))
    laid = sorted((spread(key), value) for key, value in pairs) if is_spread else pairs
    need(f"{name}: the new store", played(pair.new, "open\n"), (0, opened(1, points[: new[4]] + more, laid)))
    need(f"{name}: its text", held(pair.new)[:8], texts[1])


def refuses(folder, name, image):
    """A file that `fkv` refuses is refused with the same line."""
    pair = Pair(folder, image)
    status, lines = played(pair.old, "open\n")
    need(f"{name}: a refusal", (status, len(lines)), (3, 1))
    pair.need_refused(name, renew(pair.old, pair.new), status, f"{lines[0]}\n")


def agrees(folder, name, image):
    """What `fkv` opens is renewed, with the same pairs and points; what it refuses is refused."""
    pair = Pair(folder, image)
    status, lines = played(pair.old, "open\n")
    if status:
        refuses(folder, name, image)
        return
    need(name, renew(pair.old, pair.new)[0], 0)
    pair.need_old(name)
    words = lines[0].split()
    need(f"{name}: the new store", played(pair.new, "open\n"), (0, [" ".join([*words[:2], "1", *words[3:]]), *lines[1:]]))


def made_living(folder):
    """A living store of large sizes, as a script makes it: its image, and what is told of it."""
    pair = Pair(folder)
    updates = [f"{key % 2} up {key * 4096} {key + 7}" for key in range(40)]
    # a turn behind each quarter of a page, so that no update waits for room
    lines = [line for key, update in enumerate(updates) for line in (update, "k turn")[: 2 if key % 4 == 3 else 1]]
    # (its calls leave 130 overflow buckets to polls)
    script = ["large 12 16 4 2 2 138 64", *lines, "0 del 0", "k commit", "k finish"]
    need("a living store", played(pair.old, "\n".join(script) + "\n")[1][-1], "k finished 1 points 21 20")
    image = held(pair.old)
    need("a living store's text", image[:8], b"FKVSTOR2")
    # where the slot of commit 1 says that the log ends
    tail = int.from_bytes(image[1024 + 24 : 1024 + 32], "little")
    pairs = " ".join(f"{key * 4096}={key + 7}" for key in range(1, 40))
    return image, f"commit 1 tail {tail} points 21 20, checkpoint 1, lost, entries, pairs {pairs}"


def renewed(folder):
    """How many images there are; it ends the program where one goes wrong."""
    table = [*((name, sample.image(), wanted) for name, sample, wanted in TABLE), *rows()]
    for name, image, wanted in table:
        if wanted.startswith("commit"):
            renews(folder, name, image, wanted)
        else:
            refuses(folder, name, image)
    changed = [*changed_images()][::EACH]
    for name, image in changed:
        agrees(folder, name, image)
    return len(table) + len(changed) + to_other_sizes(folder) + with_spread_keys(folder)


def to_other_sizes(folder):
    """Stores of both classes, to sizes of both."""
    answers = {name: answer for name, _, answer in TABLE}
    living, told_living = made_living(folder)
    cases = [
        ("a specified store to a living one", TWO_HOMES.image(), answers["two homes"], "--large 12 16 4 2 2 0 64"),
        ("a specified store to a living one of small sizes", CROWD.image(), answers["crowd"], "--large 4 16 4 2 1 0 64"),
        ("a specified store with more sessions", TWO_HOMES.image(), answers["two homes"], "--shape 0 4 2 1 5 0 1"),
        ("a specified store with fewer overflow buckets", CROWD.image(), answers["crowd"], "--shape 4 16 4 2 1 0 2"),
        ("a living store", living, told_living, ""),
        ("a living store to a specified one", living, told_living, "--shape 3 8 2 1 2 9 5"),
        ("a living store to one of small sizes", living, told_living, "--large 3 8 2 1 2 9 5"),
        ("a living store to another", living, told_living, "--large 11 65536 8 3 2 2048 100000"),
    ]
    for name, image, answer, words in cases:
        renews(folder, name, image, answer, tuple(words.split()))
    return len(cases)


def with_spread_keys(folder):
    """Stores whose keys are spread, by their own sizes and by others, and one whose keys are spread twice."""
    answers = {name: answer for name, _, answer in TABLE}
    living, told_living = made_living(folder)
    cases = [
        ("spread keys", TWO_HOMES.image(), answers["two homes"], "--shape 4 16 4 2 2 4 64"),
        ("spread keys of a living store", living, told_living, ""),
        ("spread keys of a specified store", living, told_living, "--shape 6 8 2 1 2 16 5"),
    ]
    for name, image, answer, words in cases:
        renews(folder, name, image, answer, tuple(words.split()), is_spread=True)
    pair = Pair(folder, TWO_HOMES.image())
    between = f"{pair.new}.once"
    need("keys spread once", renew(pair.old, between, *cases[0][3].split(), "--spread")[0], 0)
    need("keys spread twice", renew(between, pair.new, "--spread")[0], 0)
    _, _, points, pairs = told(answers["two homes"])
    twice = sorted((spread(spread(key)), value) for key, value in pairs)
    need("a store whose keys are spread twice", played(pair.new, "open\n"), (0, opened(1, points, twice)))
    return len(cases) + 1
