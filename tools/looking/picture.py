"""What the picture of a store has to tell, worked out from its bytes, and what an SVG does."""
import dataclasses
import re
from xml.etree import ElementTree

from model import buckets_by_entries, class_of, entries_by_bucket
from samples import FIRST, INVALID, Commit, Sample, spelled
from slow_opening import LIVING_TEXT, Log, newest, shape_of, slot_of

MOST_BARS = 112
MOST_SQUARES = 1024
LAST_ROW = 15


def log_of(image):
    shape = shape_of(image)
    return Log(image, shape, slot_of(image, shape, newest(image)))


def bars(log):
    """The title of each bar."""
    size, on_device = log.shape[1], log.shape[6]
    in_use = (log.tail - 1) // size + 1
    drawn = min(on_device, max(in_use, MOST_BARS))
    a_bar = -(-drawn // MOST_BARS)
    for first in range(0, drawn, a_bar):
        end = min(first + a_bar, drawn)
        places = range(max(first * size, 1), end * size)
        classes = [class_of(log, a) if a < log.tail else "free" for a in places]
        counts = "".join(f" {name} {classes.count(name)}" for name in ("valid", "invalid", "lost", "newer", "none", "free"))
        yield f"pages from {first} to {end}{counts}"


def squares(log):
    """The title of each square."""
    entries = entries_by_bucket(log)
    a_square = max(len(entries) // MOST_SQUARES, 1)
    for first in range(0, len(entries), a_square):
        yield f"buckets from {first} to {first + a_square}: entries {sum(entries[first : first + a_square])}"


def rows(log):
    """Each row: how many entries, and how many buckets have them."""
    buckets = buckets_by_entries(log)
    for number, many in enumerate(buckets[:LAST_ROW]):
        yield str(number), many
    if buckets[LAST_ROW:]:
        yield f"{LAST_ROW}+", sum(buckets[LAST_ROW:])


def told(image):
    """What a picture has to tell."""
    log = log_of(image)
    return [*bars(log), *squares(log)], [*rows(log)], [f"the scan begins at {log.start}", f"the log ends at {log.tail}"]


def found(svg):
    """What an SVG tells: its titles, its rows, and the marks of the log."""
    root = ElementTree.fromstring(svg)
    name = root.tag.removesuffix("svg")
    titles = [title.text for title in root.iter(f"{name}title")]
    words = [text.text for text in root.iter(f"{name}text")]
    numbers = [word for word in words if re.fullmatch(r"\d+\+?", word)]
    pairs = [(label, int(many)) for label, many in zip(numbers[::2], numbers[1::2])]
    marks = [word for word in words if word.startswith(("the scan", "the log"))]
    return titles, pairs, marks


@dataclasses.dataclass(frozen=True)
class LargeSample(Sample):
    """A store of 4096 buckets and 400 pages of four records."""

    def shape(self):
        return (12, 4, 4, 2, 1, 100, 400)

    def image(self):
        return spelled(LIVING_TEXT) + super().image()[8:]


# more pages and more buckets than there are bars and squares; each seventh record is invalid
MANY = LargeSample(
    commits=(Commit(1, 1, 461, (460,), checkpoint=0, area=0),),
    records=tuple((FIRST + INVALID * (key % 7 == 0), 3 * key, key) for key in range(460)),
)
