"""Faults, and the exceptions by which a program handles them."""
from __future__ import annotations

import ctypes
import enum
import errno
import os
from typing import Optional

from ._native import lib


class Fault(enum.IntEnum):
    """The faults of fkv.h, by their numbers."""

    BAD_SHAPE = 1
    VALUE_RESERVED = 2
    PENDING_FULL = 3
    INDEX_FULL = 4
    LOG_FULL = 5
    VERSIONS_SPENT = 6
    SERIALS_SPENT = 7
    EPOCHS_SPENT = 8
    DRAIN_FULL = 9
    COMMIT_RUNNING = 10
    PENDING_LEFT = 11
    ASLEEP = 12
    BROKEN = 13
    DEVICE = 14
    NOT_A_STORE = 15
    DAMAGED = 16
    SCRIPT = 17
    MEMORY = 18
    NO_SESSION = 19
    AWAKE = 20
    LOST_FULL = 21
    HANDLE_OUT = 22
    HANDLE_TAKEN = 23
    ROOM_SMALL = 24
    NO_KEEPER = 25
    NO_MERGE = 26


class Error(Exception):
    """A call was refused. `fault` says why, and is None of a `Closed` alone."""

    fault: Optional[Fault] = None


class DeviceError(Error, OSError):
    """The system has refused a call of the file: `errno` says why. Of an open store: it commits no more, so open it anew."""


class NoFile(DeviceError, FileNotFoundError):
    """There is no such file."""


class FileThere(DeviceError, FileExistsError):
    """There is a file of this name already, and it stays as it is."""


class AlreadyOpen(DeviceError, BlockingIOError):
    """The store is open already, in this process or another one."""


class NoRight(DeviceError, PermissionError):
    """The right is missing to read or write the file, or to read its folder."""


class NotAStore(Error):
    """The file is no store's."""


class Damaged(Error):
    """The file is a store's, and damaged. `damage` and `damaged_at` say where, as `fkv_opened` of fkv.h does."""

    damage = 0
    damaged_at = 0


class BadShape(Error, ValueError):
    """A size is outside its limits."""


class ValueReserved(Error, ValueError):
    """2**64 - 1 is no value."""


class Full(Error):
    """The index or the log has no room for another record, and never will have. A living store's commits go on. Renew the store: `Store.renew`, `renew_file`."""


class Spent(Error):
    """The store has taken its last commit, or the session its last serial. It stays readable. Renew it: `Store.renew`, `renew_file`."""


class Broken(Error):
    """A call of the file has failed before: the store commits no more. Open it anew."""


class NoMemory(Error, MemoryError):
    """Memory was refused."""


class NoSession(Error):
    """No such session is left: its number is too large, or somebody has it."""


class Asleep(Error):
    """The session sleeps and should be awake, or the other way round."""


class PendingLeft(Error):
    """Requests of the session are pending."""


class InUse(Error):
    """A session of the store is out, or this is one of its hooks."""


class NoKeeper(Error):
    """No keeper's thread runs: `Store.start` comes first."""


class Closed(Error, ValueError):
    """The store or the session is closed."""


CLASSES = {
    Fault.BAD_SHAPE: BadShape, Fault.VALUE_RESERVED: ValueReserved, Fault.PENDING_FULL: PendingLeft, Fault.PENDING_LEFT: PendingLeft,
    Fault.INDEX_FULL: Full, Fault.LOG_FULL: Full, Fault.VERSIONS_SPENT: Spent, Fault.SERIALS_SPENT: Spent, Fault.EPOCHS_SPENT: Spent,
    Fault.ASLEEP: Asleep, Fault.AWAKE: Asleep, Fault.BROKEN: Broken, Fault.NOT_A_STORE: NotAStore, Fault.DAMAGED: Damaged, Fault.MEMORY: NoMemory,
    Fault.NO_SESSION: NoSession, Fault.HANDLE_TAKEN: NoSession, Fault.HANDLE_OUT: InUse, Fault.NO_KEEPER: NoKeeper,
}
OF_SYSTEM = {errno.ENOENT: NoFile, errno.EEXIST: FileThere, errno.EWOULDBLOCK: AlreadyOpen, errno.EACCES: NoRight, errno.EPERM: NoRight}


def error_of(result: int, path: Optional[str] = None) -> Error:
    """The exception of a refusal. Of a device's it takes errno, so no other call of the library may come between."""
    fault = Fault(-result)
    its: Error
    if fault is Fault.DEVICE:
        number = ctypes.get_errno()
        its = OF_SYSTEM.get(number, DeviceError)(number, os.strerror(number), path)
    else:
        its = CLASSES.get(fault, Error)(lib.fkv_text_of(result).decode())
    its.fault = fault
    return its


def check(result: int, path: Optional[str] = None) -> int:
    """The answer of a call, if it is no refusal."""
    if result < 0:
        raise error_of(result, path)
    return result
