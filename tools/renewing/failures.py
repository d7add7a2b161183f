"""Calls of the system that fail in a renewal, and crashes in them."""
import os
import subprocess
import sys
import tempfile

from files import FKV_RENEW, SECONDS, Pair, need, played, renew
from images import opened, told
from samples import TABLE, TWO_HOMES

# the calls by which a renewal writes, syncs and names
CALLS = ("write", "fsync", "linkat", "unlinkat", "fchmodat", "flock")
# what the C library may call in place of these
NAMES = {"linkat": "link,linkat", "unlinkat": "unlink,unlinkat", "fchmodat": "chmod,fchmodat"}
OPENED = (0, opened(1, *told(next(answer for name, _, answer in TABLE if name == "two homes"))[2:]))
MOST = 40


def injected(pair, call, what, number):
    """The status of a renewal in which this happens to the call of that number, and whether there is such a call."""
    names = NAMES.get(call, call)
    with tempfile.NamedTemporaryFile("r") as calls:
        strace = ["strace", "-f", "-qq", "-e", f"trace={names}", "-e", f"inject={names}:{what}:when={number}", "-o", calls.name]
        run = subprocess.run([*strace, FKV_RENEW, pair.old, pair.new], capture_output=True, text=True, timeout=SECONDS)
        happened = "(INJECTED)" in calls.read() or run.returncode < 0
    return run, happened


def fail_each(folder, call):
    """Each such call fails in turn: the renewal is refused, or what it wrote last was its answer. Nothing is left, and the reason is told."""
    for number in range(1, MOST):
        pair = Pair(folder, TWO_HOMES.image())
        run, happened = injected(pair, call, "error=EIO", number)
        if not happened:
            need(f"a renewal without a {call} that fails", (run.returncode, pair.names()), (0, ["new", "old"]))
            return number - 1
        name = f"{call} {number} that fails"
        need(f"{name}: whether the system's reason is told", "(os error 5)" in run.stderr, True)
        if run.returncode == 4:
            need(f"{name}: the new store", played(pair.new, "open\n"), OPENED)
        else:
            need(name, (run.returncode, pair.names()), (3, ["old"]))
        pair.need_old(name)
    sys.exit(f"more than {MOST} calls of {call}")


def crash_each(folder, call):
    """A crash comes in each such call: the new file isn't there, or is whole."""
    for number in range(1, MOST):
        pair = Pair(folder, TWO_HOMES.image())
        run, happened = injected(pair, call, "signal=KILL", number)
        if not happened:
            return number - 1
        name = f"a crash in {call} {number}"
        if os.path.exists(pair.new):
            need(f"{name}: the new store", played(pair.new, "open\n"), OPENED)
        pair.need_old(name)
        other = f"{pair.new}.renewing"
        if os.path.exists(other):
            os.remove(other)
        if not os.path.exists(pair.new):
            need(f"{name}: a second renewal", renew(pair.old, pair.new)[0], 0)
            need(f"{name}: the new store", played(pair.new, "open\n"), OPENED)
    sys.exit(f"more than {MOST} calls of {call}")


def failing(folder):
    """How many of these there are; it ends the program where one goes wrong."""
    counts = {call: fail_each(folder, call) + crash_each(folder, call) for call in CALLS}
    none = [call for call in CALLS if not counts[call]]
    need("calls that never came", none, [])
    return sum(counts.values())
