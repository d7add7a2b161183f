"""A key-value store of 64-bit words in a file, whose engine is proved.

    import fkv

    with fkv.open("counts", fkv.Wish(keys=1000), fkv.Keeping(commit_ms=100)) as store, store.join() as session:
        session.increment(7, 5)
        session.commit()            # a crash from now on keeps the increment
        print(session[7], session.get(8, 0))

A `Store` is a file that this process alone has open. Its keeper, a thread of the library, writes the log and makes commits. A `Session`
reads and updates the store. Each of a session's updates has a serial, and a commit keeps those up to a point, and none later.

Threads. Calls of the library are made without the interpreter's lock (the GIL), so a thread that waits for a disk holds no other one up,
and the keeper never waits for Python, unless it has hooks. Python's own code still runs in one thread at a time. So threads gain where
calls are of many keys, or wait. Give each thread a session of its own. Two threads may share one: their calls then come one after the other.

An awake session ticks by itself with each of its calls. If its thread makes none for a while, no commit finishes: let it sleep meanwhile,
by `with session.asleep():`, or close it. Make no call of a store in a signal handler, or in its hooks. In a forked child each store is closed.

Keys are 0 to 2**64 - 1, and values 0 to 2**64 - 2. Another number is an OverflowError.
"""
from ._native import ABSENT, formats, version
from .errors import (AlreadyOpen, Asleep, BadShape, Broken, Closed, Damaged, DeviceError, Error, Fault, FileThere, Full, InUse, NoFile, NoKeeper,
                     NoMemory, NoRight, NoSession, NotAStore, PendingLeft, Spent, ValueReserved)
from .session import Session
from .sizes import Shape, Size, Wish, shape_for, size_of
from .store import LOG_KEEPS, Commit, Keeping, Progress, Stats, Store, Ticket, make_file, open, renew_file

__version__ = "0.1.0"
__all__ = [
    "ABSENT", "AlreadyOpen", "Asleep", "BadShape", "Broken", "Closed", "Commit", "Damaged", "DeviceError", "Error", "Fault", "FileThere", "Full",
    "InUse", "Keeping", "LOG_KEEPS", "NoFile", "NoKeeper", "NoMemory", "NoRight", "NoSession", "NotAStore", "PendingLeft", "Progress", "Session", "Shape", "Size",
    "Spent", "Stats", "Store", "Ticket", "ValueReserved", "Wish", "formats", "make_file", "open", "renew_file", "shape_for", "size_of", "version",
]
