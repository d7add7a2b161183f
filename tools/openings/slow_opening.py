"""What an image of any of the four formats holds, worked out slowly and from its bytes alone, rule by rule."""
MAX_SESSIONS = 32
# a header holds the mark of its version: the versions 1, 2, 3, .. have the marks 1 to this in turn
MARKS = 8191
LAST_SERIAL = 2**48 - 1
MAX_LOST = 8
# what bucket bits, page, frames, overflow buckets and disk pages are at most, by the text that begins the image
SPECIFIED_TEXT, LIVING_TEXT = (int.from_bytes(text, "little") for text in (b"FKVSTOR1", b"FKVSTOR2"))
LAST_VERSION = {SPECIFIED_TEXT: 8191, LIVING_TEXT: 2**45 - 1}
MOST = {SPECIFIED_TEXT: (10, 1024, 64, 1024, 65536), LIVING_TEXT: (24, 65536, 4096, 2**24, 2**30)}
OPEN = 0xA5
INVALID = 62
ABSENT = 2**64 - 1
# of each format: how many places its slot has for points, and where what it says of the checkpoint begins, in numbers of
# eight bytes
PLACES = {1: (8, None), 2: (8, 15), 3: (32, 39), 4: (32, 39)}
# where the fourth says at which address the log begins
BEGIN = 57


def find(image):
    """The answers that may be given of an image: its store, or faults of which any one may be named."""
    shape = shape_of(image)
    if shape is None:
        return ["NotAStore"]
    index = newest(image)
    slot = slot_of(image, shape, index)
    if slot is None:
        return [f"Manifest {index}"]
    log = Log(image, shape, slot)
    for fault in (log.triple_fault(), log.scan_fault(), log.led_fault()):
        if fault:
            return [fault]
    faults = log.chain_faults()
    if faults:
        return faults
    full = first_full_bucket(shape, log.entries())
    return [log.line()] if full is None else [f"Full {full}"]


def number_at(image, at):
    """The eight bytes from an offset on, the lowest first. Past the end they are 0."""
    return int.from_bytes(image[at : at + 8].ljust(8, b"\0"), "little")


def slot_numbers(image, index):
    return [number_at(image, 512 + 512 * index + 8 * place) for place in range(64)]


def is_open(image, index):
    return slot_numbers(image, index)[0] % 256 == OPEN


def is_ring(size, least, most):
    return least <= size <= most and size & (size - 1) == 0


def most_triples(shape):
    return 7 * (2 ** shape[0] + shape[5])


def fits(shape, most):
    """Whether bucket bits, page, frames, overflow buckets and disk pages are at most these, and each size is one that a store has."""
    bits, page, frames, mutable, sessions, overflow, disk_pages = shape
    most_bits, most_page, most_frames, most_overflow, most_disk = most
    return (
        bits <= most_bits
        and is_ring(page, 4, most_page)
        and is_ring(frames, 2, most_frames)
        and 1 <= mutable < frames
        and 1 <= sessions <= MAX_SESSIONS
        and overflow <= most_overflow
        and 1 <= disk_pages <= most_disk
    )


def shape_of(image):
    if not (is_open(image, 0) or is_open(image, 1)):
        return None
    shape = tuple(number_at(image, 8 + 8 * size) for size in range(7))
    text = number_at(image, 0)
    return shape if text in MOST and fits(shape, MOST[text]) else None


def oldest(image, checkpoint):
    """The oldest version that a record of the scan may have, by the number of the commit that made the checkpoint."""
    return 1 if number_at(image, 0) == SPECIFIED_TEXT else max(1, checkpoint)


def newest(image):
    """Of the open slots the one with the greater number, slot 0 where they are equal."""
    opened = [index for index in (0, 1) if is_open(image, index)]
    return max(opened, key=lambda index: (slot_numbers(image, index)[1], -index))


class Slot:
    """What a slot says. Its numbers stand where its format has them."""

    def __init__(self, numbers, form):
        self.number, self.start, self.tail, self.count, self.area, self.sessions = numbers[1:7]
        self.places, checkpoint = PLACES[form]
        self.points = numbers[7 : 7 + self.sessions]
        self.begin = numbers[BEGIN] if form == 4 else 1
        if form == 4:
            numbers = [*numbers[:BEGIN], 0, *numbers[BEGIN + 1 :]]
        if checkpoint is None:
            self.checkpoint, self.range_count, self.lost = self.number, 0, []
            self.rest = numbers[7 + self.sessions : 63]
            return
        self.checkpoint, self.range_count = numbers[checkpoint : checkpoint + 2]
        behind = checkpoint + 2 + 2 * self.range_count
        ranges = numbers[checkpoint + 2 : behind]
        self.lost = list(zip(ranges[::2], ranges[1::2]))
        self.rest = numbers[7 + self.sessions : checkpoint] + numbers[behind:63]


def slot_of(image, shape, index):
    """What the slot says, if it is one of a store."""
    numbers = slot_numbers(image, index)
    form = numbers[63] or 1
    if numbers[0] != OPEN or form not in PLACES or numbers[63] == 1:
        return None
    slot = Slot(numbers, form)
    versions = slot.number + 1 - oldest(image, slot.checkpoint) + 1
    before = [(0, 0), *slot.lost]
    fits = (
        slot.number < LAST_VERSION[number_at(image, 0)]
        and slot.number % 2 == index
        and 1 <= slot.start <= slot.tail <= shape[6] * shape[1]
        and 1 <= slot.begin <= slot.start
        and (form != 4 or number_at(image, 0) == LIVING_TEXT)
        and slot.count <= most_triples(shape)
        and slot.area < 2
        and (form != 1 or slot.area == index)
        and slot.sessions == shape[4]
        and slot.sessions <= slot.places
        and all(point <= LAST_SERIAL for point in slot.points)
        and slot.checkpoint <= slot.number
        and versions <= MARKS
        and slot.range_count <= MAX_LOST
        and all(slot.start < to <= slot.tail for to, _ in slot.lost)
        and all(slot.checkpoint < version <= slot.number for _, version in slot.lost)
        and all(a[0] <= b[0] and a[1] < b[1] for a, b in zip(before, slot.lost))
        and not any(slot.rest)
    )
    return slot if fits else None


class Log:
    """The log that a slot names. What stands below its begin was given back: an address below it leads nowhere."""

    def __init__(self, image, shape, slot):
        self.image, self.shape, self.slot = image, shape, slot
        self.begin, self.start, self.tail = slot.begin, slot.start, slot.tail
        self.oldest = oldest(image, slot.checkpoint)
        self.triples_at = 1536 + 16 * most_triples(shape) * slot.area
        self.records_at = 1536 + 32 * most_triples(shape)
        self.known = None

    def triple(self, i):
        """Its home, zeros and address."""
        place = number_at(self.image, self.triples_at + 16 * i)
        home = (place % 2**32, (place >> 32) % 2**16)
        return home, place >> 48, number_at(self.image, self.triples_at + 16 * i + 8)

    def triples(self):
        return [self.triple(i) for i in range(self.slot.count)]

    def triple_of(self, home):
        """The address of a home's triple, if it has one that leads into the log."""
        return next((address for its, _, address in self.led() if its == home), None)

    def led(self):
        """The triples that lead into the log."""
        return [triple for triple in self.triples() if triple[2] >= self.begin]

    def header(self, a):
        return number_at(self.image, self.records_at + 24 * a)

    def named(self, a):
        """The address in its header."""
        return self.header(a) % 2**48

    def previous(self, a):
        """Where it leads: to that address if the log has it, and else nowhere."""
        return self.named(a) if self.named(a) >= self.begin else 0

    def mark(self, a):
        return (self.header(a) >> 48) % 2**13

    def version(self, a):
        """In the scan the version of the window that has the mark, 0 where none has it; below the scan the mark itself."""
        if a < self.start:
            return self.mark(a)
        window = range(self.oldest, self.slot.number + 2)
        return next((version for version in range(self.mark(a), window.stop, MARKS) if version in window), 0)

    def bit(self, a, bit):
        return (self.header(a) >> bit) % 2 == 1

    def is_valid(self, a):
        return not self.bit(a, INVALID)

    def key(self, a):
        return number_at(self.image, self.records_at + 24 * a + 8)

    def value(self, a):
        return number_at(self.image, self.records_at + 24 * a + 16)

    def home(self, a):
        """Bucket and tag."""
        bits = self.shape[0]
        return self.key(a) % 2**bits, (self.key(a) >> bits) % 2**15

    def is_lost(self, a):
        return (
            self.start <= a
            and self.is_valid(a)
            and any(a < to and self.version(a) == version for to, version in self.slot.lost)
        )

    def is_spelled(self, a):
        """The bytes there spell a record."""
        return not self.bit(a, 61) and not self.bit(a, 63) and self.mark(a) >= 1

    def is_record(self, a, last_version):
        return self.is_spelled(a) and 1 <= self.version(a) <= last_version and self.named(a) < a

    def triple_fault(self):
        homes = set()
        for i in range(self.slot.count):
            home, zeros, address = self.triple(i)
            bucket, tag = home
            fits = zeros == 0 and bucket < 2 ** self.shape[0] and tag < 2**15 and 1 <= address < self.tail
            if not fits or home in homes:
                return f"Triple {i}"
            homes.add(home)
        return None

    def is_way(self, a):
        """The record leads below the start, and there where its home's triple does, or nowhere if there is none."""
        led = self.triple_of(self.home(a))
        if led is None:
            return self.previous(a) == 0
        return self.previous(a) < self.start and (led >= self.start or self.previous(a) == led)

    def lower(self, a):
        """The valid records of the home from the start on and below this one."""
        return [b for b in range(self.start, a) if self.is_valid(b) and self.home(b) == self.home(a)]

    def is_linked(self, a):
        """A valid record of the scan is on the chain of its home."""
        lower = self.lower(a)
        previous = self.previous(a)
        below = {self.previous(b) for b in [*lower, a] if self.previous(b) < self.start}
        if previous < self.start and below != {previous}:
            return False
        if self.is_lost(a):
            return previous in lower if previous >= self.start else self.is_way(a)
        kept = [b for b in lower if not self.is_lost(b)]
        if kept:
            return previous == kept[-1] and self.version(kept[-1]) <= self.version(a)
        return self.is_way(a)

    def scan_fault(self):
        for a in range(self.start, self.tail):
            if not self.is_record(a, self.slot.number + 1):
                return f"Record {a}"
            if self.is_valid(a) and not self.is_linked(a):
                return f"Link {a}"
        return None

    def led_fault(self):
        for home, _, address in self.triples():
            if address >= self.start and not (self.is_valid(address) and self.home(address) == home):
                return f"Link {address}"
        return None

    def reached(self):
        """The least set that holds the valid records from the start on, what each triple leads to, and what each of
        its records leads to."""
        if self.known is None:
            self.known = {a for a in range(self.start, self.tail) if self.is_valid(a)}
            self.known |= {address for _, _, address in self.led()}
            found = list(self.known)
            while found:
                a = found.pop()
                below = self.previous(a) if self.is_spelled(a) else 0
                if below != 0 and below not in self.known:
                    self.known.add(below)
                    found.append(below)
        return self.known

    def chain_faults(self):
        """All faults of the records below the start."""
        leading = {}  # the homes that lead to an address
        for home, _, address in self.led():
            leading.setdefault(address, set()).add(home)
        for b in filter(self.is_spelled, self.reached()):
            leading.setdefault(self.previous(b), set()).add(self.home(b))
        faults = []
        for a in sorted(a for a in self.reached() if a < self.start):
            if not self.is_record(a, self.slot.number):
                faults.append(f"Record {a}")
            if self.is_spelled(a) and (not self.is_valid(a) or leading[a] != {self.home(a)}):
                faults.append(f"Link {a}")
        return faults

    def counted(self):
        """The records that count, upwards."""
        return sorted(
            a
            for a in self.reached()
            if self.is_valid(a) and self.version(a) <= self.slot.number and not self.is_lost(a)
        )

    def entries(self):
        """For each home its greatest record that counts: bucket, tag and address."""
        greatest = {self.home(a): a for a in self.counted()}
        return sorted((bucket, tag, a) for (bucket, tag), a in greatest.items())

    def pairs(self):
        """Each key with the value of its greatest record that counts, without those that are deleted."""
        greatest = {self.key(a): self.value(a) for a in self.counted()}
        return sorted((key, value) for key, value in greatest.items() if value != ABSENT)

    def lost_in_hand(self):
        """The ranges that the slot names, and one more where a record is newer than its commit."""
        next_version = self.slot.number + 1
        scanned = range(self.start, self.tail)
        newer = any(self.is_valid(a) and self.version(a) == next_version for a in scanned)
        return self.slot.lost + [(self.tail, next_version)] * newer

    def line(self):
        """The store, as the tests of fkv_opening_tests write it."""
        slot = self.slot
        points = "".join(f" {point}" for point in slot.points)
        lost = "".join(f" {to}:{version}" for to, version in self.lost_in_hand())
        entries = "".join(f" {bucket}.{tag}:{a}" for bucket, tag, a in self.entries())
        pairs = "".join(f" {key}={value}" for key, value in self.pairs())
        begin = f" begin {slot.begin}" * (slot.begin != 1)
        return (
            f"commit {slot.number}{begin} tail {slot.tail} points{points}, checkpoint {slot.checkpoint} from {slot.start} "
            f"triples {slot.count} area {slot.area}, lost{lost}, entries{entries}, "
            f"pairs{pairs}"
        )


def first_full_bucket(shape, entries):
    """Fills the buckets upwards, each with its homes, and with overflow buckets in order where its own slots are
    taken."""
    left = shape[5]
    for bucket in range(2 ** shape[0]):
        free = 7
        for _ in (entry for entry in entries if entry[0] == bucket):
            if free == 0:
                if left == 0:
                    return bucket
                left -= 1
                free = 7
            free -= 1
    return None
