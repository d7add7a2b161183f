"""Images of stores that are spelled number by number, and tables of them with bytes changed: the answer of each, worked out by
hand."""
import random



def image(places, records=""):
    """The image with these numbers of eight bytes at their places and zeros elsewhere, and from byte 5144 on the numbers of
    its records: header, key and value."""
    numbers = dict(map(int, word.split("=")) for word in places.split())
    size = max(5144, *(at + 8 for at in numbers))
    built = bytearray(size)
    for at, number in numbers.items():
        built[at : at + 8] = number.to_bytes(8, "little")
    return bytes(built[:5144]) + b"".join(int(word).to_bytes(8, "little") for word in records.split())


def changed(whole, places):
    """The image with these bytes at their places."""
    other = bytearray(whole)
    for word in places.split():
        at, byte = map(int, word.split("="))
        other[at] = byte
    return bytes(other)


# a block of 16 buckets, pages of 16 records, four frames, one session, no overflow bucket and 64 pages: its areas are at 1536
# and 3328, and its records begin at 5144
BLOCK = "0=3553990279542754118 8=4 16=16 24=4 32=2 40=1 48=0 56=64 "
# what slot 1 says besides in each format: in the second and the third, that the checkpoint is the commit's own
FORMATS = (" 1528=0", " 1144=1 1528=2", " 1336=1 1528=3")
NEW = BLOCK + "512=165 528=1 536=1 560=1 "  # commit 0 in slot 0

# commit 1 in slot 1: its log ends at address 2, and a triple in area 1 leads key 1 to the record at address 1
SLOT = "1024=165 1032=1 1040=2 1048=2 1056=1 1064=1 1072=1 1080=1 3328=1 3336=1"
ONE = [image(NEW + SLOT + form, "281474976710656 1 10") for form in FORMATS]

# commit 1, whose checkpoint was copied once two newer records were there: two records of version 1, and two of version 2 that
# it leaves out; both keys have one home, bucket 1 and tag 0
NEWER = "1024=165 1032=1 1040=3 1048=5 1056=1 1064=1 1072=1 1080=2 3328=1 3336=4"
RECORDS = "281474976710656 1 10 281474976710657 524289 20 562949953421314 1 12 562949953421315 524289 21"
LEFT_OUT = [image(NEW + NEWER + form, RECORDS) for form in FORMATS]

# commit 2 in slot 0, a log commit over the checkpoint of commit 1, in the second format and in the third: its log ends at address
# 6, behind a record of key 1 from the life behind commit 1, and version 2 is lost up to address 5
LOG_SLOT = " 512=165 520=2 528=3 536=6 544=1 552=1 560=1 568=3"
LOGGED = [
    image(BLOCK + NEWER + FORMATS[2] + LOG_SLOT + form, RECORDS + " 562949953421314 1 13")
    for form in (" 632=1 640=1 648=5 656=2 1016=2", " 824=1 832=1 840=5 848=2 1016=3")
]

# commit 8190, the last that there is, in slot 0 behind commit 8189: its log ends at address 3, and a triple in area 0 leads key 1
# to the record at address 1, of version 8190; that at address 2, of version 8191, is left out
LAST_SLOT = "512=165 520=8190 528=2 536=3 544=1 552=0 560=1 568=1 1024=165 1032=8189 1536=1 1544=1"
LAST = [
    image(BLOCK + LAST_SLOT + form, f"{8190 << 48} 1 10 {(8191 << 48) + 1} 1 11")
    for form in (" 1016=0", " 632=8190 1016=2", " 824=8190 1016=3")
]

# log commit 3 over the checkpoint of commit 0, which names two lost ranges and leaves a third record out
LIVES = image(
    BLOCK + "1024=165 1032=3 1040=1 1048=4 1072=1 1344=2 1352=2 1360=2 1368=3 1376=3 1528=3",
    " ".join(f"{version << 48} 1 1" for version in range(2, 11)),
)

# commit 2 behind commit 1, with one record more: a log commit over its checkpoint, and one with a checkpoint of its own
TWO = [
    image(BLOCK + SLOT + FORMATS[2] + " 512=165 520=2 536=3 544=1 560=1 568=2 1016=3 " + form, "281474976710656 1 10 562949953421313 1 11")
    for form in ("528=2 552=1 824=1", "528=3 552=0 824=2 1536=1 1544=2")
]

# the most sessions, of which the last alone has a point
MOST = image(NEW + SLOT + FORMATS[2] + " 40=32 1072=32 1080=0 1328=1", "281474976710656 1 10")

# commit 1 over the checkpoint of commit 0: seven homes of bucket 1, and one of bucket 2
CROWD = image(
    BLOCK + "1024=165 1032=1 1040=1 1048=9 1072=1 1080=8 1528=3",
    " ".join(f"{1 << 48} {key} 10" for key in (1, 17, 33, 49, 65, 81, 97, 2)),
)

# commit 3 with its own checkpoint, which has two homes: of each a record below the scan's start and one in it, to which a triple
# leads; and one more of the first, of a newer version
HOMES = image(
    BLOCK
    + "1024=165 1032=3 1040=3 1048=6 1056=2 1064=1 1072=1 1080=5 1336=3 1528=3 3328=1 3336=3 3344=2 3352=4",
    "281474976710656 1 10 281474976710656 2 20 562949953421313 1 11 562949953421314 2 21 844424930131971 1 12",
)

# log commit 11 over the checkpoint of commit 0, in the second format and in the third: its log ends at address 10, behind nine
# records of one key; it names eight lost ranges, as many as there can be, and the ninth record counts
ELEVEN = "1024=165 1032=11 1040=1 1048=10 1072=1 "
EIGHT_LOST = [
    image(
        BLOCK + ELEVEN + form + "".join(f" {at + 16 * i}={i + 2} {at + 16 * i + 8}={i + 2}" for i in range(8)),
        " ".join(f"{version << 48} 1 {version}" for version in range(2, 11)),
    )
    for form, at in (("1152=8 1528=2", 1160), ("1344=8 1528=3", 1352))
]

# The block of a living store of these sizes. Commit 3 in slot 1, in the fourth format: its log begins at address 3, its scan starts at 5, and it ends at 7.
# Its triples lead home 1.0 to address 3, home 2.0 to address 2, which lies below the begin, and home 3.0 to address 4. So home 2.0 is dead until its record
# at address 6, whose header still names address 2. Zeros stand at addresses 1 and 2. In slot 0 stands commit 2, in the third format
LIVING_BLOCK = BLOCK.replace("0=3553990279542754118", f"0={3553990279542754118 + (1 << 56)}")
BEFORE = "512=165 520=2 528=3 536=5 544=2 560=1 568=4 824=2 1016=3 1536=1 1544=1 1552=2 1560=2 "
BEGUN_SLOT = "1024=165 1032=3 1040=5 1048=7 1056=3 1064=1 1072=1 1080=5 1336=3 1480=3 1528=4 3328=1 3336=3 3344=2 3352=2 3360=3 3368=4"
BEGUN_RECORDS = f"0 0 0 0 0 0 {(2 << 48) + 1} 1 11 {2 << 48} 3 30 {(3 << 48) + 3} 1 12 {(3 << 48) + 2} 2 21"
BEGUN = image(LIVING_BLOCK + BEFORE + BEGUN_SLOT, BEGUN_RECORDS)

# log commit 4 over that checkpoint. The record at address 6 is of version 4 and lost; a store that was opened behind commit 3 had no entry of home 2.0, so
# the one at address 7 leads nowhere
AGAIN_SLOT = " 512=165 520=4 528=5 536=8 544=3 552=1 560=1 568=6 824=3 832=1 840=7 848=4 968=3 1016=4"
AGAIN = image(LIVING_BLOCK + BEGUN_SLOT + AGAIN_SLOT, BEGUN_RECORDS.replace(f"{(3 << 48) + 2} 2 21", f"{(4 << 48) + 2} 2 21 {4 << 48} 2 22"))

# commit 1, whose checkpoint has eight homes of bucket 1, one more than a bucket has slots: the first of them lies below the begin
DEAD = image(
    LIVING_BLOCK
    + "1024=165 1032=1 1040=9 1048=9 1056=8 1064=1 1072=1 1080=8 1336=1 1480=2 1528=4 "
    + " ".join(f"{3328 + 16 * i}={1 + (i << 32)} {3336 + 16 * i}={i + 1}" for i in range(8)),
    " ".join(f"{1 << 48} {16 * i + 1} 10" for i in range(8)),
)

# what stands alike in all three formats; of two open slots with equal numbers slot 0 is the newest, whatever it says
ONE_CHANGED = """
    0=0: NotAStore
    512=0 1024=0: NotAStore
    1024=0: commit 0 tail 1 points 0, checkpoint 0 from 1 triples 0 area 0, lost, entries, pairs
    1025=1: Manifest 1
    1032=2: Manifest 1
    1032=0: commit 0 tail 1 points 0, checkpoint 0 from 1 triples 0 area 0, lost, entries, pairs
    520=1: Manifest 0
    1048=1: Manifest 1
    1086=1: Manifest 1
    1080=0 1086=1: Manifest 1
    1072=0: Manifest 1
    1072=2: Manifest 1
    3328=16: Triple 0
    3334=1: Triple 0
    3336=0: Triple 0
    3336=2: Triple 0
    1056=2 3344=1 3352=1: Triple 1
    5144=1: Record 1
    5150=2: Record 1
    5150=0: Record 1
    5151=32: Record 1
    5151=64: Link 1
    5152=2: Link 1
    5160=11: commit 1 tail 2 points 1, checkpoint 1 from 2 triples 1 area 1, lost, entries 1.0:1, pairs 1=11
    1080=255 1081=255 1082=255 1083=255 1084=255 1085=255: commit 1 tail 2 points 281474976710655, checkpoint 1 from 2 triples 1 area 1, lost, entries 1.0:1, pairs 1=10
    512=0: commit 1 tail 2 points 1, checkpoint 1 from 2 triples 1 area 1, lost, entries 1.0:1, pairs 1=10
"""

# another number may be the commit's, up to 8189, the last one in slot 1; in the first format the checkpoint is always its own
FIRST_NUMBER = """
    1032=253 1033=31: commit 8189 tail 2 points 1, checkpoint 8189 from 2 triples 1 area 1, lost, entries 1.0:1, pairs 1=10
    1032=255 1033=31: Manifest 1
    1064=0: Manifest 1
    1144=1: Manifest 1
    1336=1: Manifest 1
    1528=1: Manifest 1
    40=9 1072=9: Manifest 1
"""

# in the second a slot has no place for a ninth session's point either, and no checkpoint is newer than its commit
SECOND_NUMBER = """
    1032=253 1033=31: commit 8189 tail 2 points 1, checkpoint 1 from 2 triples 1 area 1, lost, entries 1.0:1, pairs 1=10
    40=9 1072=9: Manifest 1
    1144=2: Manifest 1
"""

# and in the third
THIRD_NUMBER = """
    1032=253 1033=31: commit 8189 tail 2 points 1, checkpoint 1 from 2 triples 1 area 1, lost, entries 1.0:1, pairs 1=10
    1032=255 1033=31: Manifest 1
    1064=0: Triple 0
    1144=1: Manifest 1
    40=9 1072=9: commit 1 tail 2 points 1 0 0 0 0 0 0 0 0, checkpoint 1 from 2 triples 1 area 1, lost, entries 1.0:1, pairs 1=10
    1336=2: Manifest 1
"""

# the last number, in slot 0, whether slot 1 names the one before it or the same; a greater one leaves no version for what follows. A
# living store has no record in the scan that is older than the checkpoint
LAST_CHANGED = """
    1032=253: commit 8190 tail 3 points 1, checkpoint 8190 from 2 triples 1 area 0, lost 3:8191, entries 1.0:1, pairs 1=10
    1032=254: commit 8190 tail 3 points 1, checkpoint 8190 from 2 triples 1 area 0, lost 3:8191, entries 1.0:1, pairs 1=10
    5174=254: commit 8190 tail 3 points 1, checkpoint 8190 from 2 triples 1 area 0, lost, entries 1.0:2, pairs 1=11
    5150=255: Record 1
    520=255: Manifest 0
    520=0 521=32: Manifest 0
    5174=253: commit 8190 tail 3 points 1, checkpoint 8190 from 2 triples 1 area 0, lost, entries 1.0:2, pairs 1=11
    7=50: commit 8190 tail 3 points 1, checkpoint 8190 from 2 triples 1 area 0, lost 3:8191, entries 1.0:1, pairs 1=10
    7=50 5174=254: commit 8190 tail 3 points 1, checkpoint 8190 from 2 triples 1 area 0, lost, entries 1.0:2, pairs 1=11
    7=50 5174=253: Record 2
"""

# the block: a size outside the limits of its text is no store's, and the living text takes small sizes too; with the most buckets, or
# overflow buckets, the areas lie elsewhere
BLOCK_CHANGED = """
    7=50: commit 1 tail 2 points 1, checkpoint 1 from 2 triples 1 area 1, lost, entries 1.0:1, pairs 1=10
    7=51: NotAStore
    7=51 8=11: NotAStore
    7=50 8=10: Triple 0
    7=50 8=11: Triple 0
    7=50 8=25: NotAStore
    7=50 16=0 17=8: commit 1 tail 2 points 1, checkpoint 1 from 2 triples 1 area 1, lost, entries 1.0:1, pairs 1=10
    7=50 16=0 18=2: NotAStore
    7=50 24=128: commit 1 tail 2 points 1, checkpoint 1 from 2 triples 1 area 1, lost, entries 1.0:1, pairs 1=10
    7=50 24=0 25=32: NotAStore
    7=50 48=1 49=4: Triple 0
    7=50 56=1 58=1: commit 1 tail 2 points 1, checkpoint 1 from 2 triples 1 area 1, lost, entries 1.0:1, pairs 1=10
    7=50 56=0 58=1: commit 1 tail 2 points 1, checkpoint 1 from 2 triples 1 area 1, lost, entries 1.0:1, pairs 1=10
    7=50 56=1 59=64: NotAStore
    8=11: NotAStore
    8=10: Triple 0
    15=1: NotAStore
    16=6: NotAStore
    16=2: NotAStore
    16=0 17=8: NotAStore
    24=3: NotAStore
    24=128: NotAStore
    32=4: NotAStore
    32=0: NotAStore
    40=0: NotAStore
    40=33: NotAStore
    48=1 49=4: NotAStore
    49=4: Triple 0
    56=0: NotAStore
    58=1: NotAStore
    56=1 58=1: NotAStore
    56=0 58=1: commit 1 tail 2 points 1, checkpoint 1 from 2 triples 1 area 1, lost, entries 1.0:1, pairs 1=10
    40=2: Manifest 1
"""

# records 3 and 4 are newer than the commit, and make a lost range where one is valid; the triple of their home leads to record 4
LEFT_OUT_CHANGED = """
    5216=2: Link 4
    5198=3: Record 3
    5199=64: Link 4
    3336=2: commit 1 tail 5 points 2, checkpoint 1 from 3 triples 1 area 1, lost 5:2, entries 1.0:2, pairs 1=10 524289=20
    3336=2 5216=2: Link 4
    3336=2 5199=64: Link 4
    3336=1: Link 3
    3336=2 5199=64 5223=64: commit 1 tail 5 points 2, checkpoint 1 from 3 triples 1 area 1, lost, entries 1.0:2, pairs 1=10 524289=20
    5174=2: Record 2
    5175=64: Link 2
    5168=0 5174=0: Record 2
    5150=0: Record 1
    5150=2: Record 1
    5144=1: Record 1
    5152=2: Link 1
    5216=0 5224=2 5226=0: Link 4
"""

# a log commit's slot: the numbers that stand alike in the second format and in the third; its log may end where its lost records do
SLOT_CHANGED = """
    513=1: Manifest 0
    519=1: Manifest 0
    520=3: Manifest 0
    520=0: commit 1 tail 5 points 2, checkpoint 1 from 3 triples 1 area 1, lost 5:2, entries 1.0:2, pairs 1=10 524289=20
    512=164: commit 1 tail 5 points 2, checkpoint 1 from 3 triples 1 area 1, lost 5:2, entries 1.0:2, pairs 1=10 524289=20
    528=0: Manifest 0
    528=5: Manifest 0
    536=2: Manifest 0
    536=4: Manifest 0
    536=5 568=2: commit 2 tail 5 points 2, checkpoint 1 from 3 triples 1 area 1, lost 5:2, entries 1.0:2, pairs 1=10 524289=20
    537=4: Manifest 0
    544=113: Manifest 0
    544=2: Triple 1
    552=2: Manifest 0
    552=0: Triple 0
    560=2: Manifest 0
    574=1: Manifest 0
    576=1: Manifest 0
"""

# its checkpoint, ranges and format, where the third format has them
THIRD_CHANGED = """
    816=1: Manifest 0
    824=3: Manifest 0
    824=2: Manifest 0
    824=0: commit 2 tail 6 points 3, checkpoint 0 from 3 triples 1 area 1, lost 5:2, entries 1.0:5, pairs 1=13 524289=20
    832=0: Manifest 0
    832=2: Manifest 0
    832=9: Manifest 0
    840=3: Manifest 0
    840=4: Link 4
    840=6: commit 2 tail 6 points 3, checkpoint 1 from 3 triples 1 area 1, lost 6:2, entries 1.0:2, pairs 1=10 524289=20
    840=7: Manifest 0
    848=1: Manifest 0
    848=3: Manifest 0
    856=1: Manifest 0
    968=1: Manifest 0
    1015=1: Manifest 0
    1016=0: Manifest 0
    1016=1: Manifest 0
    1016=2: Manifest 0
    1016=4: Manifest 0
    1017=1: Manifest 0
"""

# and where the second has them
SECOND_CHANGED = """
    632=3: Manifest 0
    632=2: Manifest 0
    632=0: commit 2 tail 6 points 3, checkpoint 0 from 3 triples 1 area 1, lost 5:2, entries 1.0:5, pairs 1=13 524289=20
    640=0: Manifest 0
    640=2: Manifest 0
    640=9: Manifest 0
    648=3: Manifest 0
    648=4: Link 4
    648=6: commit 2 tail 6 points 3, checkpoint 1 from 3 triples 1 area 1, lost 6:2, entries 1.0:2, pairs 1=10 524289=20
    648=7: Manifest 0
    656=1: Manifest 0
    656=3: Manifest 0
    664=1: Manifest 0
    776=1: Manifest 0
    1016=0: Manifest 0
    1016=3: Manifest 0
"""

# the triple of the home, which leads to record 4; where it leads below the scan, all the home's records have to
TRIPLE_CHANGED = """
    3336=3: commit 2 tail 6 points 3, checkpoint 1 from 3 triples 1 area 1, lost 5:2, entries 1.0:5, pairs 1=13 524289=20
    3336=5: commit 2 tail 6 points 3, checkpoint 1 from 3 triples 1 area 1, lost 5:2, entries 1.0:5, pairs 1=13 524289=20
    3336=2: commit 2 tail 6 points 3, checkpoint 1 from 3 triples 1 area 1, lost 5:2, entries 1.0:5, pairs 1=13 524289=20
    3336=1: Link 3
    3336=6: Triple 0
    3336=2 5192=5: Record 3
    3336=2 5192=1: Link 3
    3336=2 5152=2: Link 1
    3328=16: Triple 0
    3328=2: Link 3
    3333=128: Triple 0
"""

# the lost records, which may lead to a newer version
LOST_CHANGED = """
    5192=1: Link 5
    5192=3: Record 3
    5199=64: Link 4
    5200=2: Link 3
    5216=2: commit 2 tail 6 points 3, checkpoint 1 from 3 triples 1 area 1, lost 5:2, entries 1.0:5, pairs 1=13 524289=20
    5216=1: Link 4
    5216=4: Record 4
    5222=3: Link 4
    5222=1: Link 4
    5223=64: Link 4
    5224=2: Link 4
    5198=3 5247=64: commit 2 tail 6 points 3, checkpoint 1 from 3 triples 1 area 1, lost 5:2 6:3, entries 1.0:2, pairs 1=10 524289=20
"""

# the record behind them
KEPT_CHANGED = """
    5240=1: Link 5
    5240=3: Link 5
    5240=4: Link 5
    5240=5: Record 5
    5246=0: Record 5
    5246=1: commit 2 tail 6 points 3, checkpoint 1 from 3 triples 1 area 1, lost 5:2, entries 1.0:5, pairs 1=13 524289=20
    5246=3: commit 2 tail 6 points 3, checkpoint 1 from 3 triples 1 area 1, lost 5:2 6:3, entries 1.0:2, pairs 1=10 524289=20
    5246=4: Record 5
    5216=2 5222=3 5240=4: Link 5
    5216=2 5222=3 5240=4 5246=3: commit 2 tail 6 points 3, checkpoint 1 from 3 triples 1 area 1, lost 5:2 6:3, entries 1.0:2, pairs 1=10 524289=20
    5247=32: Record 5
    5247=64: commit 2 tail 6 points 3, checkpoint 1 from 3 triples 1 area 1, lost 5:2, entries 1.0:2, pairs 1=10 524289=20
    5247=128: Record 5
    5248=3: Link 5
"""

# and where it is invalid, which spares it the rules of links alone; of the next version it makes no lost range
INVALID_CHANGED = """
    5240=3 5247=64: commit 2 tail 6 points 3, checkpoint 1 from 3 triples 1 area 1, lost 5:2, entries 1.0:2, pairs 1=10 524289=20
    5246=3 5247=64: commit 2 tail 6 points 3, checkpoint 1 from 3 triples 1 area 1, lost 5:2, entries 1.0:2, pairs 1=10 524289=20
    5246=4 5247=64: Record 5
    5246=0 5247=64: Record 5
    5240=5 5247=64: Record 5
    5247=96: Record 5
    5247=192: Record 5
"""

# those below the scan
BELOW_CHANGED = """
    5168=2: Record 2
    5168=0: commit 2 tail 6 points 3, checkpoint 1 from 3 triples 1 area 1, lost 5:2, entries 1.0:5, pairs 1=13 524289=20
    5174=2: commit 2 tail 6 points 3, checkpoint 1 from 3 triples 1 area 1, lost 5:2, entries 1.0:5, pairs 1=13 524289=20
    5174=3: Record 2
    5175=64: Link 2
    5176=2: Link 2
    5150=0: Record 1
    5150=3: Record 1
    5151=64: Link 1
    5152=2: Link 1
    5160=7: commit 2 tail 6 points 3, checkpoint 1 from 3 triples 1 area 1, lost 5:2, entries 1.0:5, pairs 1=13 524289=20
"""

# two places are damaged: the first stage that finds one tells it, and the scan goes upwards
TWICE_CHANGED = """
    0=0 552=2: NotAStore
    552=2 3336=6: Manifest 0
    3336=6 5192=3: Triple 0
    5192=3 5200=2: Record 3
    5192=3 5216=1: Record 3
    5200=2 5240=5: Link 3
    5223=64 5150=0: Link 4
    5240=4 5150=0: Link 5
"""

# the versions of the ranges of commit 3 rise, and none ends before the one that it follows
RANGES_CHANGED = """
    1376=2: Manifest 1
    1376=1: Manifest 1
    1352=4: Manifest 1
    1368=2: Link 3
    1352=3: commit 3 tail 4 points 0, checkpoint 0 from 1 triples 0 area 0, lost 3:2 3:3 4:4, entries, pairs
"""

# a triple at the scan's start or above it leads to a valid record of its own home, and the first of them that doesn't is told; no
# home has two triples; a link leads to no newer version; and what an invalid record leads to is not followed. In a living store a record
# of the scan is of the checkpoint's version at least
HOMES_CHANGED = """
    3336=1 3352=2: commit 3 tail 6 points 5, checkpoint 3 from 3 triples 2 area 1, lost, entries 1.0:5 2.0:4, pairs 1=12 2=21
    3336=5: commit 3 tail 6 points 5, checkpoint 3 from 3 triples 2 area 1, lost, entries 1.0:5 2.0:4, pairs 1=12 2=21
    3336=4: Link 4
    3352=3: Link 3
    3352=5: Link 5
    3336=4 3352=3: Link 4
    3328=2 3344=1: Link 3
    1056=3 3360=1 3364=1 3368=3: Link 3
    1056=3 3360=1 3368=3: Triple 2
    1056=3 3360=1 3368=1: Triple 2
    3344=1: Triple 1
    5198=3: commit 3 tail 6 points 5, checkpoint 3 from 3 triples 2 area 1, lost, entries 1.0:5 2.0:4, pairs 1=12 2=21
    5198=3 5246=2: Link 5
    5198=4: Link 5
    1056=1 3328=2 3336=4 5150=0 5192=0 5240=1 5247=64: commit 3 tail 6 points 5, checkpoint 3 from 3 triples 1 area 1, lost, entries 1.0:3 2.0:4, pairs 1=11 2=21
    1056=1 3328=2 3336=4 5150=0 5192=0 5240=1: Link 5
    7=50: Record 3
    7=50 5198=3: Record 4
    7=50 5198=3 5222=3: commit 3 tail 6 points 5, checkpoint 3 from 3 triples 2 area 1, lost, entries 1.0:5 2.0:4, pairs 1=12 2=21
    7=50 5198=3 5222=2: Record 4
    7=50 5198=3 5222=3 5246=4: commit 3 tail 6 points 5, checkpoint 3 from 3 triples 2 area 1, lost 6:4, entries 1.0:3 2.0:4, pairs 1=11 2=21
    7=50 1336=2: commit 3 tail 6 points 5, checkpoint 2 from 3 triples 2 area 1, lost, entries 1.0:5 2.0:4, pairs 1=12 2=21
    7=50 1336=1: commit 3 tail 6 points 5, checkpoint 1 from 3 triples 2 area 1, lost, entries 1.0:5 2.0:4, pairs 1=12 2=21
"""

# the record behind the checkpoint's start counts, or is what the triple leads to
TWO_LOGGED = """
    824=1: commit 2 tail 3 points 2, checkpoint 1 from 2 triples 1 area 1, lost, entries 1.0:2, pairs 1=11
"""

TWO_COPIED = """
    824=2: commit 2 tail 3 points 2, checkpoint 2 from 3 triples 1 area 0, lost, entries 1.0:2, pairs 1=11
"""

# eight lost ranges, and a ninth that is in order too
SECOND_LOST = """
    1152=8: commit 11 tail 10 points 0, checkpoint 0 from 1 triples 0 area 0, lost 2:2 3:3 4:4 5:5 6:6 7:7 8:8 9:9, entries 1.0:9, pairs 1=10
    1152=9 1288=10 1296=10: Manifest 1
"""

THIRD_LOST = """
    1344=8: commit 11 tail 10 points 0, checkpoint 0 from 1 triples 0 area 0, lost 2:2 3:3 4:4 5:5 6:6 7:7 8:8 9:9, entries 1.0:9, pairs 1=10
    1344=9 1480=10 1488=10: Manifest 1
"""

# the most sessions
MOST_CHANGED = """
    1080=0: commit 1 tail 2 points 0 0 0 0 0 0 0 0 0 0 0 0 0 0 0 0 0 0 0 0 0 0 0 0 0 0 0 0 0 0 0 1, checkpoint 1 from 2 triples 1 area 1, lost, entries 1.0:1, pairs 1=10
    40=33: NotAStore
    1072=33: Manifest 1
    1528=0: Manifest 1
    1334=1: Manifest 1
"""

# the key of the eighth record is another, or its header; on a device with eight addresses a log ends at address 8 at most
CROWD_CHANGED = """
    5320=2: commit 1 tail 9 points 8, checkpoint 0 from 1 triples 0 area 0, lost, entries 1.0:1 1.1:2 1.2:3 1.3:4 1.4:5 1.5:6 1.6:7 2.0:8, pairs 1=10 2=10 17=10 33=10 49=10 65=10 81=10 97=10
    16=8 56=1: Manifest 1
    16=8 56=1 1048=8: commit 1 tail 8 points 8, checkpoint 0 from 1 triples 0 area 0, lost, entries 1.0:1 1.1:2 1.2:3 1.3:4 1.4:5 1.5:6 1.6:7, pairs 1=10 17=10 33=10 49=10 65=10 81=10 97=10
    5320=113: Full 1
    5320=113 5319=64: commit 1 tail 9 points 8, checkpoint 0 from 1 triples 0 area 0, lost, entries 1.0:1 1.1:2 1.2:3 1.3:4 1.4:5 1.5:6 1.6:7, pairs 1=10 17=10 33=10 49=10 65=10 81=10 97=10
    5320=97: Link 8
    5272=97 5288=6 5320=97 5312=6: Link 8
    5272=97 5288=6 5320=97 5312=7: commit 1 tail 9 points 8, checkpoint 0 from 1 triples 0 area 0, lost, entries 1.0:1 1.1:2 1.2:3 1.3:4 1.4:5 1.6:8, pairs 1=10 17=10 33=10 49=10 65=10 97=10
    5320=97 5312=7: commit 1 tail 9 points 8, checkpoint 0 from 1 triples 0 area 0, lost, entries 1.0:1 1.1:2 1.2:3 1.3:4 1.4:5 1.5:6 1.6:8, pairs 1=10 17=10 33=10 49=10 65=10 81=10 97=10
"""

# the begin: from 1 up to the address at which the scan starts, in a living store alone, with zeros around it. Where it is the first address, the zeros at 1
# and 2 are no records, and where it is above a triple, the triple is none
BEGIN_CHANGED = """
    1480=0: Manifest 1
    1480=1: Record 1
    1480=2: Record 2
    1480=4: commit 3 begin 4 tail 7 points 5, checkpoint 3 from 5 triples 3 area 1, lost, entries 1.0:5 2.0:6 3.0:4, pairs 1=12 2=21 3=30
    1480=5: commit 3 begin 5 tail 7 points 5, checkpoint 3 from 5 triples 3 area 1, lost, entries 1.0:5 2.0:6, pairs 1=12 2=21
    1480=6: Manifest 1
    1481=1: Manifest 1
    1487=1: Manifest 1
    1472=1: Manifest 1
    1488=1: Manifest 1
    1520=1: Manifest 1
    1528=3: Manifest 1
    1528=5: Manifest 1
    1480=0 1528=3: Record 1
    7=49: Manifest 1
    7=49 1480=1: Manifest 1
    7=49 1480=0 1528=3: Record 1
    1024=0: Record 1
"""

# all that names an address below the begin leads nowhere, and is otherwise as it may be: a triple has an address, and a header none at or above its own
BEGUN_CHANGED = """
    5264=0: commit 3 begin 3 tail 7 points 5, checkpoint 3 from 5 triples 3 area 1, lost, entries 1.0:5 2.0:6 3.0:4, pairs 1=12 2=21 3=30
    5264=1: commit 3 begin 3 tail 7 points 5, checkpoint 3 from 5 triples 3 area 1, lost, entries 1.0:5 2.0:6 3.0:4, pairs 1=12 2=21 3=30
    5264=3: Link 6
    5264=4: Link 6
    5264=5: Link 6
    5264=6: Record 6
    5271=64: commit 3 begin 3 tail 7 points 5, checkpoint 3 from 5 triples 3 area 1, lost, entries 1.0:5 3.0:4, pairs 1=12 3=30
    5270=4: commit 3 begin 3 tail 7 points 5, checkpoint 3 from 5 triples 3 area 1, lost 7:4, entries 1.0:5 3.0:4, pairs 1=12 3=30
    5240=0: Link 5
    5240=2: Link 5
    5240=4: Link 5
    5192=0: commit 3 begin 3 tail 7 points 5, checkpoint 3 from 5 triples 3 area 1, lost, entries 1.0:5 2.0:6 3.0:4, pairs 1=12 2=21 3=30
    5192=2: commit 3 begin 3 tail 7 points 5, checkpoint 3 from 5 triples 3 area 1, lost, entries 1.0:5 2.0:6 3.0:4, pairs 1=12 2=21 3=30
    5192=3: Record 3
    5198=0: Record 3
    5199=64: Link 3
    5200=17: Link 3
    5216=3: Link 3
    5216=2: commit 3 begin 3 tail 7 points 5, checkpoint 3 from 5 triples 3 area 1, lost, entries 1.0:5 2.0:6 3.0:4, pairs 1=12 2=21 3=30
    5222=4: Record 4
    3336=2: Link 5
    3336=2 5240=2: commit 3 begin 3 tail 7 points 5, checkpoint 3 from 5 triples 3 area 1, lost, entries 1.0:5 2.0:6 3.0:4, pairs 1=12 2=21 3=30
    3336=2 5240=0 5192=7 5193=255: commit 3 begin 3 tail 7 points 5, checkpoint 3 from 5 triples 3 area 1, lost, entries 1.0:5 2.0:6 3.0:4, pairs 1=12 2=21 3=30
    3352=1: commit 3 begin 3 tail 7 points 5, checkpoint 3 from 5 triples 3 area 1, lost, entries 1.0:5 2.0:6 3.0:4, pairs 1=12 2=21 3=30
    3352=0: Triple 1
    3352=7: Triple 1
    3344=1: Triple 1
    3344=16: Triple 1
    3352=4: Link 6
    3352=6: commit 3 begin 3 tail 7 points 5, checkpoint 3 from 5 triples 3 area 1, lost, entries 1.0:5 2.0:6 3.0:4, pairs 1=12 2=21 3=30
    1048=6: commit 3 begin 3 tail 6 points 5, checkpoint 3 from 5 triples 3 area 1, lost, entries 1.0:5 3.0:4, pairs 1=12 3=30
    1048=5: commit 3 begin 3 tail 5 points 5, checkpoint 3 from 5 triples 3 area 1, lost, entries 1.0:3 3.0:4, pairs 1=11 3=30
    1056=2: commit 3 begin 3 tail 7 points 5, checkpoint 3 from 5 triples 2 area 1, lost, entries 1.0:5 2.0:6, pairs 1=12 2=21
"""

# behind the log commit the lost record names address 2, and the one behind it nothing; a begin at or below address 2 makes them disagree
AGAIN_CHANGED = """
    5264=0: commit 4 begin 3 tail 8 points 6, checkpoint 3 from 5 triples 3 area 1, lost 7:4, entries 1.0:5 2.0:7 3.0:4, pairs 1=12 2=22 3=30
    5264=3: Link 6
    5288=1: commit 4 begin 3 tail 8 points 6, checkpoint 3 from 5 triples 3 area 1, lost 7:4, entries 1.0:5 2.0:7 3.0:4, pairs 1=12 2=22 3=30
    5288=2: commit 4 begin 3 tail 8 points 6, checkpoint 3 from 5 triples 3 area 1, lost 7:4, entries 1.0:5 2.0:7 3.0:4, pairs 1=12 2=22 3=30
    5288=3: Link 7
    5288=6: Link 7
    840=8: commit 4 begin 3 tail 8 points 6, checkpoint 3 from 5 triples 3 area 1, lost 8:4, entries 1.0:5 3.0:4, pairs 1=12 3=30
    968=1: Link 7
    968=2: Link 7
    968=2 5288=2: Record 2
    968=2 5264=0: Link 6
    968=4: commit 4 begin 4 tail 8 points 6, checkpoint 3 from 5 triples 3 area 1, lost 7:4, entries 1.0:5 2.0:7 3.0:4, pairs 1=12 2=22 3=30
    968=5: commit 4 begin 5 tail 8 points 6, checkpoint 3 from 5 triples 3 area 1, lost 7:4, entries 1.0:5 2.0:7, pairs 1=12 2=22
    968=6: Manifest 0
    968=0 1016=3: Link 7
    512=0 1480=0: Manifest 1
    512=0: commit 3 begin 3 tail 7 points 5, checkpoint 3 from 5 triples 3 area 1, lost 7:4, entries 1.0:5 3.0:4, pairs 1=12 3=30
    1480=0: commit 4 begin 3 tail 8 points 6, checkpoint 3 from 5 triples 3 area 1, lost 7:4, entries 1.0:5 2.0:7 3.0:4, pairs 1=12 2=22 3=30
"""

# a dead home takes no slot of its bucket
DEAD_CHANGED = """
    1480=1: Full 1
    1480=3: commit 1 begin 3 tail 9 points 8, checkpoint 1 from 9 triples 8 area 1, lost, entries 1.2:3 1.3:4 1.4:5 1.5:6 1.6:7 1.7:8, pairs 33=10 49=10 65=10 81=10 97=10 113=10
    1480=9: commit 1 begin 9 tail 9 points 8, checkpoint 1 from 9 triples 8 area 1, lost, entries, pairs
"""

TABLES = [
    *((f"one commit, format {form + 1}", ONE[form], ONE_CHANGED) for form in (0, 1, 2)),
    ("one commit, format 1", ONE[0], FIRST_NUMBER),
    ("one commit, format 1", ONE[0], BLOCK_CHANGED),
    ("one commit, format 2", ONE[1], SECOND_NUMBER),
    ("one commit, format 3", ONE[2], THIRD_NUMBER),
    *((f"the last commit, format {form + 1}", LAST[form], LAST_CHANGED) for form in (0, 1, 2)),
    *((f"records left out, format {form + 1}", LEFT_OUT[form], LEFT_OUT_CHANGED) for form in (0, 1, 2)),
    ("a log commit, format 2", LOGGED[0], SLOT_CHANGED + SECOND_CHANGED),
    ("a log commit, format 3", LOGGED[1], SLOT_CHANGED + THIRD_CHANGED),
    ("its log", LOGGED[1], TRIPLE_CHANGED + LOST_CHANGED + KEPT_CHANGED + INVALID_CHANGED + BELOW_CHANGED + TWICE_CHANGED),
    ("a log commit of one record", TWO[0], TWO_LOGGED),
    ("a copy over one record", TWO[1], TWO_COPIED),
    ("two homes", HOMES, HOMES_CHANGED),
    ("eight lost ranges, format 2", EIGHT_LOST[0], SECOND_LOST),
    ("eight lost ranges, format 3", EIGHT_LOST[1], THIRD_LOST),
    ("three lives", LIVES, RANGES_CHANGED),
    ("32 sessions", MOST, MOST_CHANGED),
    ("eight homes", CROWD, CROWD_CHANGED),
    ("a begin", BEGUN, BEGIN_CHANGED),
    ("a dead home", BEGUN, BEGUN_CHANGED),
    ("a home that comes back behind a log commit", AGAIN, AGAIN_CHANGED),
    ("eight homes, one of them dead", DEAD, DEAD_CHANGED),
]

# what the samples without a change are answered
ONE_WHOLE = "commit 1 tail 2 points 1, checkpoint 1 from 2 triples 1 area 1, lost, entries 1.0:1, pairs 1=10"
LEFT_OUT_WHOLE = (
    "commit 1 tail 5 points 2, checkpoint 1 from 3 triples 1 area 1, lost 5:2, entries 1.0:2, pairs 1=10 524289=20"
)
LOGGED_WHOLE = (
    "commit 2 tail 6 points 3, checkpoint 1 from 3 triples 1 area 1, lost 5:2, entries 1.0:5, pairs 1=13 524289=20"
)
BEGUN_WHOLE = "commit 3 begin 3 tail 7 points 5, checkpoint 3 from 5 triples 3 area 1, lost, entries 1.0:5 2.0:6 3.0:4, pairs 1=12 2=21 3=30"
AGAIN_WHOLE = "commit 4 begin 3 tail 8 points 6, checkpoint 3 from 5 triples 3 area 1, lost 7:4, entries 1.0:5 2.0:7 3.0:4, pairs 1=12 2=22 3=30"
DEAD_WHOLE = (
    "commit 1 begin 2 tail 9 points 8, checkpoint 1 from 9 triples 8 area 1, lost, entries 1.1:2 1.2:3 1.3:4 1.4:5 1.5:6 1.6:7 1.7:8, "
    "pairs 17=10 33=10 49=10 65=10 81=10 97=10 113=10"
)
WHOLE = [
    *((f"one commit, format {form + 1}", ONE[form], ONE_WHOLE) for form in (0, 1, 2)),
    *((f"records left out, format {form + 1}", LEFT_OUT[form], LEFT_OUT_WHOLE) for form in (0, 1, 2)),
    *((f"a log commit, format {form + 2}", LOGGED[form], LOGGED_WHOLE) for form in (0, 1)),
    ("a begin", BEGUN, BEGUN_WHOLE),
    ("a home that comes back behind a log commit", AGAIN, AGAIN_WHOLE),
    ("eight homes, one of them dead", DEAD, DEAD_WHOLE),
]

# a store over many lives whose log commits leave a record out each: those of commits 1, 2, 3 and 9, over the checkpoint of commit
# 0. Each names the records that those before it left out; the one of commit 9 is full. And full commit 10
LOST_RECORDS = " ".join(f"{version << 48} 1 1" for version in range(2, 11))
MANY_LIVES = """
    1024=165 1032=1 1040=1 1048=2 1072=1 1528=3: commit 1 tail 2 points 0, checkpoint 0 from 1 triples 0 area 0, lost 2:2, entries, pairs
    512=165 520=2 528=1 536=3 560=1 832=1 840=2 848=2 1016=3: commit 2 tail 3 points 0, checkpoint 0 from 1 triples 0 area 0, lost 2:2 3:3, entries, pairs
    1024=165 1032=3 1040=1 1048=4 1072=1 1344=2 1352=2 1360=2 1368=3 1376=3 1528=3: commit 3 tail 4 points 0, checkpoint 0 from 1 triples 0 area 0, lost 2:2 3:3 4:4, entries, pairs
    1024=165 1032=9 1040=1 1048=10 1072=1 1344=8 1352=2 1360=2 1368=3 1376=3 1384=4 1392=4 1400=5 1408=5 1416=6 1424=6 1432=7 1440=7 1448=8 1456=8 1464=9 1472=9 1528=3: commit 9 tail 10 points 0, checkpoint 0 from 1 triples 0 area 0, lost 2:2 3:3 4:4 5:5 6:6 7:7 8:8 9:9 10:10, entries, pairs
    512=165 520=10 528=10 536=10 552=1 560=1 824=10 1016=3: commit 10 tail 10 points 0, checkpoint 10 from 10 triples 0 area 1, lost, entries, pairs
"""

# log commit 2 over the checkpoint in area 1, and three records. A third commit was cut off at the first write of its triples: had it been
# written over the area in use, the checkpoint would be gone
CUT_OFF_BASE = (
    "1024=165 1032=1 1040=2 1048=2 1056=1 1064=1 1072=1 1080=1 3328=1 3336=1 1336=1 1528=3 "
    "512=165 520=2 528=2 536=3 544=1 552=1 560=1 568=2 824=1 1016=3 "
)
CUT_OFF_RECORDS = "281474976710656 1 10 562949953421313 1 11 844424930131970 1 12"
CUT_OFF = """
    1536=11936128518282651045 1544=11936128518282651045: commit 2 tail 3 points 2, checkpoint 1 from 2 triples 1 area 1, lost, entries 1.0:2, pairs 1=11
    3328=11936128518282651045 3336=11936128518282651045: Triple 0
"""

# eight sessions open in each format, and one more in the third alone, which has places for it
SESSIONS_SLOT = "1024=165 1032=1 1040=2 1048=2 1056=1 1064=1 3328=1 3336=1 1080=1 1088=2 1096=3 1104=4 1112=5 1120=6 1128=7 1136=8 "
EIGHT_SESSIONS = """
    40=8 1072=8 1528=0: commit 1 tail 2 points 1 2 3 4 5 6 7 8, checkpoint 1 from 2 triples 1 area 1, lost, entries 1.0:1, pairs 1=10
    40=8 1072=8 1144=1 1528=2: commit 1 tail 2 points 1 2 3 4 5 6 7 8, checkpoint 1 from 2 triples 1 area 1, lost, entries 1.0:1, pairs 1=10
    40=8 1072=8 1336=1 1528=3: commit 1 tail 2 points 1 2 3 4 5 6 7 8, checkpoint 1 from 2 triples 1 area 1, lost, entries 1.0:1, pairs 1=10
    40=9 1072=9 1144=9 1528=0: Manifest 1
    40=9 1072=9 1144=9 1528=2: Manifest 1
    40=9 1072=9 1144=9 1336=1 1528=3: commit 1 tail 2 points 1 2 3 4 5 6 7 8 9, checkpoint 1 from 2 triples 1 area 1, lost, entries 1.0:1, pairs 1=10
"""

# tables of numbers of eight bytes: what each row has besides the base, its records, and its answer
NUMBERED = [
    ("many lives", "", LOST_RECORDS, MANY_LIVES),
    ("a third commit is cut off", CUT_OFF_BASE, CUT_OFF_RECORDS, CUT_OFF),
    ("sessions with a point each", SESSIONS_SLOT, "281474976710656 1 10", EIGHT_SESSIONS),
]

# The ten calls of a second commit, of the third format, over a store of the first: a record of key 1 with the value 11, the triple that
# leads to it, and slot 0 behind its gate, which is written last; each write is synced before the next.
SECOND_SLOT = image("520=2 528=3 536=3 544=1 560=1 568=2 824=2 1016=3")[513:1024]
COMMIT_WRITES = [
    (5168, b"".join(number.to_bytes(8, "little") for number in ((2 << 48) + 1, 1, 11))),
    (1536, (1).to_bytes(8, "little") + (2).to_bytes(8, "little")),
    (512, bytes([0])),
    (513, SECOND_SLOT),
    (512, bytes([165])),
]
SECOND_WHOLE = "commit 2 tail 3 points 2, checkpoint 2 from 3 triples 1 area 0, lost, entries 1.0:2, pairs 1=11"


def written(whole, at, part):
    """The image with these bytes from a place on."""
    padded = whole.ljust(at, b"\0")
    return padded[:at] + part + padded[at + len(part) :]


def cut_off(passing, torn):
    """What a crash leaves where so many calls of the second commit pass: the write of the call that fails, or that of a sync that
    does, is torn."""
    left = ONE[0]
    for number, (at, part) in enumerate(COMMIT_WRITES):
        if passing < 2 * number:
            break
        left = written(left, at, part if passing > 2 * number + 1 else bytes([torn]) * len(part))
    return left


def format_changes():
    """The first commit stands, in the first format, until the gate of the second one is open."""
    for passing in range(10):
        for torn in (0, 165, 255):
            wanted = SECOND_WHOLE if passing >= 8 and torn == 165 else ONE_WHOLE
            yield f"a format changes: call {passing} torn {torn}", cut_off(passing, torn), wanted
    yield "a format changes", cut_off(10, 255), SECOND_WHOLE


def holes():
    """Nothing below the begin counts, whatever stands there: zeros, as a hole reads, or garbage, or records that once counted."""
    chosen = random.Random(2)
    live = b"".join(number.to_bytes(8, "little") for number in (1 << 48, 1, 7, 1 << 48, 2, 8))
    for name, whole, first, wanted in (("a begin", BEGUN, 2, BEGUN_WHOLE), ("a home that comes back", AGAIN, 2, AGAIN_WHOLE), ("eight homes", DEAD, 1, DEAD_WHOLE)):
        size = 24 * first
        for part in (bytes(size), b"\xff" * size, live[:size], *(chosen.randbytes(size) for _ in range(8))):
            yield f"{name}: {part.hex()} below it", written(whole, 5144, part), wanted


# an image that ends early has zeros from there on
CUT = {
    63: "NotAStore",
    512: "NotAStore",
    1024: "commit 0 tail 1 points 0, checkpoint 0 from 1 triples 0 area 0, lost, entries, pairs",
    3336: "Triple 0",
    5150: "Record 1",
    5152: "Link 1",
    5161: "commit 1 tail 2 points 1, checkpoint 1 from 2 triples 1 area 1, lost, entries 1.0:1, pairs 1=10",
}


def split(table):
    """The rows of a table, each its places and its answer."""
    for line in filter(None, map(str.strip, table.splitlines())):
        yield line.split(": ", 1)


def rows():
    """The images, each with a name and its answer."""
    yield from WHOLE
    for name, base, records, table in NUMBERED:
        for places, wanted in split(table):
            yield f"{name}: {places}", image(BLOCK + base + places, records), wanted
    for name, whole, table in TABLES:
        for places, wanted in split(table):
            yield f"{name}: {places}", changed(whole, places), wanted
    yield from format_changes()
    yield from holes()
    for size, wanted in CUT.items():
        yield f"one commit: {size} bytes", ONE[0][:size], wanted
