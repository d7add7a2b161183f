"""What fkv_look has to say of an image, worked out slowly from its bytes, as lines; and the lines that a value of its JSON stands for."""
import os
import sys

sys.path.insert(0, os.path.join(os.path.dirname(os.path.abspath(__file__)), "..", "openings"))
from slow_opening import LAST_SERIAL, LAST_VERSION, MAX_LOST, OPEN, PLACES, Log, Slot, find, is_open, most_triples, newest, number_at, shape_of, slot_numbers, slot_of
from samples import changed


def shape_line(image):
    """The sizes that the block spells, whatever the gates are."""
    shape = shape_of(changed(image.ljust(1536, b"\0"), (512, OPEN)))
    if shape is None:
        return "no shape"
    return ("shape" if image[7:8] == b"1" else "large") + "".join(f" {size}" for size in shape)


def slot_line(image, index):
    """What a slot says, whether or not a store can have it."""
    if not is_open(image, index):
        return f"slot {index} closed"
    numbers = slot_numbers(image, index)
    unspelled = f"slot {index} commit {numbers[1]} and no slot's bytes"
    form = numbers[63] or 1
    if numbers[0] != OPEN or form not in PLACES or numbers[63] == 1:
        return unspelled
    slot = Slot(numbers, form)
    fits = (
        1 <= slot.sessions <= slot.places
        and all(point <= LAST_SERIAL for point in slot.points)
        and slot.range_count <= MAX_LOST
        and not any(slot.rest)
    )
    if not fits:
        return unspelled
    kind = "full" if slot.checkpoint == slot.number else "log"
    begin = f" begin {slot.begin}" * (slot.begin != 1)
    return (
        f"slot {index} commit {slot.number} {kind} format {form} end {slot.tail} checkpoint {slot.checkpoint} from {slot.start} "
        f"triples {slot.count} area {slot.area}{begin} points{words(slot.points)} lost{words(colons(slot.lost))}"
    )


def words(items):
    return "".join(f" {item}" for item in items)


def colons(pairs):
    return [f"{first}:{second}" for first, second in pairs]


def class_of(log, a):
    """What stands at an address of the log."""
    if not log.is_spelled(a):
        return "none"
    if not log.is_valid(a):
        return "invalid"
    if log.version(a) > log.slot.number:
        return "newer"
    lost = any(a < to and log.version(a) == version for to, version in log.lost_in_hand())
    return "lost" if lost and log.start <= a else "valid"


def page_lines(log):
    size = log.shape[1]
    for page in range((log.tail - 1) // size + 1):
        first, end = max(page * size, 1), min((page + 1) * size, log.tail)
        classes = [class_of(log, a) for a in range(first, end)]
        counts = "".join(f" {name} {classes.count(name)}" for name in ("valid", "invalid", "lost", "newer", "none"))
        yield f"page {page} from {first} to {end}{counts}"


def entries_by_bucket(log):
    """How many entries each bucket has."""
    counts = [0] * 2 ** log.shape[0]
    for bucket, _, _ in log.entries():
        counts[bucket] += 1
    return counts


def buckets_by_entries(log):
    """How many buckets have each number of entries, up to the most that one has."""
    counts = entries_by_bucket(log)
    return [counts.count(number) for number in range(max(counts) + 1)]


def store_lines(log):
    """The lines of a whole store, with its pairs."""
    slot, shape = log.slot, log.shape
    yield f"entries {len(log.entries())} of {most_triples(shape)}"
    yield f"records {slot.tail - 1} of {shape[1] * shape[6] - 1}"
    yield f"commits {slot.number} of {LAST_VERSION[number_at(log.image, 0)] - 1}"
    yield f"sessions {sum(point > 0 for point in slot.points)} of {shape[4]}"
    yield f"buckets by entries{words(buckets_by_entries(log))}"
    yield f"lost in hand{words(colons(log.lost_in_hand()))}"
    yield from page_lines(log)
    yield f"pairs {len(log.pairs())}"
    yield from (f"pair {key} {value}" for key, value in log.pairs())


def part_bytes(image, part, place):
    """The bytes where a part is damaged."""
    if part == "Full":
        return b""
    if part == "Manifest":
        return cut(image, 512 + 512 * place, 512)
    shape = shape_of(image)
    log = Log(image, shape, slot_of(image, shape, newest(image)))
    if part == "Triple":
        return cut(image, log.triples_at + 16 * place, 16)
    return cut(image, log.records_at + 24 * place, 24)


def cut(image, at, many):
    return image[at : at + many].ljust(many, b"\0")


def endings(image):
    """What may stand behind the slots' lines: of one fault or of a store."""
    for answer in find(image):
        kind = answer.split()[0]
        if kind == "NotAStore":
            yield ["no store"]
        elif kind == "commit":
            shape = shape_of(image)
            yield [*store_lines(Log(image, shape, slot_of(image, shape, newest(image))))]
        else:
            yield [f"damaged {answer} bytes {part_bytes(image, kind, int(answer.split()[1])).hex()}"]


def allowed(image):
    """The lists of lines of which any one may be given."""
    open_slots = [index for index in (0, 1) if is_open(image, index)]
    in_force = f"slot {newest(image)} is in force" if open_slots else "no slot is in force"
    front = [shape_line(image), slot_line(image, 0), slot_line(image, 1), in_force]
    return [front + ending for ending in endings(image)]


def lines_of(value):
    """The lines that a value of JSON stands for."""
    sizes = ("bucket_bits", "page", "frames", "mutable", "sessions", "overflow", "disk_pages")
    shape, found = value["shape"], value["found"]
    if shape is None:
        yield "no shape"
    else:
        yield ("shape" if shape["specified"] else "large") + words(shape[size] for size in sizes)
    for index, slot in enumerate(value["slots"]):
        yield f"slot {index} {slot_words(slot)}"
    yield "no slot is in force" if value["in_force"] is None else f"slot {value['in_force']} is in force"
    if found is None:
        yield "no store"
    elif "damaged" in found:
        yield f"damaged {found['damaged']} {found['place']} bytes {found['bytes']}"
    else:
        yield from found_lines(found)
    if value["pairs"] is not None:
        yield f"pairs {len(value['pairs'])}"
        yield from (f"pair {key} {its}" for key, its in value["pairs"])


def slot_words(slot):
    if slot["state"] == "closed":
        return "closed"
    if slot["state"] == "unspelled":
        return f"commit {slot['commit']} and no slot's bytes"
    named = "".join(f" {name} {slot[name]}" for name in ("format", "end", "checkpoint", "from", "triples", "area", "begin") if name in slot)
    return f"commit {slot['commit']} {slot['kind']}{named} points{words(slot['points'])} lost{words(colons(slot['lost']))}"


def found_lines(found):
    for name in ("entries", "records", "commits", "sessions"):
        yield f"{name} {found['uses'][name]['used']} of {found['uses'][name]['most']}"
    yield f"buckets by entries{words(found['buckets_by_entries'])}"
    yield f"lost in hand{words(colons(found['lost_in_hand']))}"
    for number, page in enumerate(found["pages"]):
        yield f"page {number}" + "".join(f" {name} {page[name]}" for name in ("from", "to", "valid", "invalid", "lost", "newer", "none"))
