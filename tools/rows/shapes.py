"""The shapes that most rows have, by bucket bits, page, frames, mutable pages, sessions, overflow buckets and disk pages; and lines that
fill a small one."""
from rows import whole

ONE = "shape 4 16 4 2 1 0 64"  # one session, and room in memory for more than a row writes
TWO = "shape 4 16 4 2 2 0 64"
SMALL = "shape 4 4 2 1 1 0 64"  # two frames of four records, so that records leave memory
LARGE_ONE, LARGE_TWO = "large 11 16 4 2 1 0 64", "large 11 16 4 2 2 0 64"
SMALL_TWO = "shape 4 4 2 1 2 0 64"

SEVEN = whole(f"0 up {key} {10 * key} | 0 #{key} done" for key in range(1, 8)).rstrip()
FOUR = whole(f"0 up {key} {10 * (key == 1)} | 0 #{key} done" for key in range(1, 5)).rstrip()
