"""The shared library: where it is, and the types of its calls."""
from __future__ import annotations

import ctypes
import os
import warnings
from ctypes import CFUNCTYPE, POINTER, Structure, c_char_p, c_int32, c_size_t, c_uint32, c_uint64, c_void_p

NAME = "libfkv.so.0"
SERIES = "0.1."
ABSENT = 2**64 - 1
COLD = 2**64 - 1
MOST_SESSIONS = 32
DONE, FOUND, NONE, PENDING = 0, 1, 2, 3
KEEP, MIN, SUB, AND, OR, FIRST = range(6)
WORD = POINTER(c_uint64)


class CShape(Structure):
    _fields_ = [(it, c_uint64) for it in ("bucket_bits", "page", "frames", "mutable_pages", "sessions", "overflow", "disk_pages")]


class COpened(Structure):
    _fields_ = [(it, c_uint64) for it in ("number", "damage", "damaged_at", "entries")]


class CRenewed(Structure):
    _fields_ = [(it, c_uint64) for it in ("size", "damage", "damaged_at")]


class CUpdate(Structure):
    _fields_ = [(it, c_uint64) for it in ("serial", "value", "reason")]


class CEachRead(Structure):
    _fields_ = [("value", c_uint64), ("result", c_int32)]


class CEachUpdate(Structure):
    _fields_ = [("serial", c_uint64), ("value", c_uint64), ("reason", c_uint64), ("result", c_int32)]


class CSeen(Structure):
    _fields_ = [("phase", c_uint64), ("version", c_uint64)]


class CProgress(Structure):
    _fields_ = [("work", c_uint32), ("done", c_uint64), ("total", c_uint64)]


PROGRESS = CFUNCTYPE(None, c_void_p, POINTER(CProgress))
COMMITTED = CFUNCTYPE(None, c_void_p, c_uint64, WORD, c_size_t)
STOPPED = CFUNCTYPE(None, c_void_p, c_int32, use_errno=True)
UNWARMED = CFUNCTYPE(None, c_void_p)
UNTRIMMED = CFUNCTYPE(None, c_void_p, c_int32)
PAIR = CFUNCTYPE(c_int32, c_void_p, c_uint64, c_uint64)


class CWish(Structure):
    _fields_ = [(it, c_uint64) for it in ("keys", "sessions", "memory_bytes", "updates_between_commits", "log_bytes")]


class CSize(Structure):
    _fields_ = [(it, c_uint64) for it in ("memory_bytes", "opening_bytes", "file_bytes", "keys", "records")]


class CHow(Structure):
    _fields_ = [("keys", c_uint32), ("mapped", c_uint32), ("progress", PROGRESS), ("user", c_void_p), ("opened", POINTER(COpened)),
                ("warm", c_uint64)]


class CKeeping(Structure):
    _fields_ = [("commit_ms", c_uint32), ("log_commits", c_uint32), ("turn_us", c_uint32), ("committed", COMMITTED), ("progress", PROGRESS),
                ("user", c_void_p), ("stopped", STOPPED), ("unwarmed", UNWARMED), ("no_warmer", c_uint32),
                ("log_bytes", c_uint64), ("untrimmed", UNTRIMMED)]


STATS = ("commits", "commits_left", "commit_us", "commit_bytes", "in_hand_us", "late", "joined", "abandoned", "turns", "helped", "cold_reads",
         "fetched", "kept", "file_bytes", "disk_bytes", "swept", "begin", "head", "flushed", "read_only", "tail", "overflow", "entries")
REASONS = 6


class CStats(Structure):
    _fields_ = [*((it, c_uint64) for it in STATS), ("stopped", c_int32), ("waited", c_uint64 * REASONS),
                ("pending", c_uint64 * REASONS)]


# What each call takes. It gives an int32_t, unless RESULTS says otherwise.
CALLS = {
    "fkv_version": [], "fkv_formats": [], "fkv_name_of": [c_int32], "fkv_text_of": [c_int32],
    "fkv_shape_for": [POINTER(CWish), POINTER(CShape)],
    "fkv_size_of": [POINTER(CShape), POINTER(CSize)],
    "fkv_make_file": [c_char_p, POINTER(CShape)],
    "fkv_open_file": [c_char_p, POINTER(CHow), POINTER(c_void_p)],
    "fkv_close_file": [c_void_p], "fkv_drop_file": [c_void_p],
    "fkv_save": [c_void_p, c_char_p, PROGRESS, c_void_p],
    "fkv_each": [c_void_p, PAIR, c_void_p],
    "fkv_renew_file": [c_char_p, c_char_p, POINTER(CShape), c_uint32, POINTER(CRenewed)],
    "fkv_renew_here": [c_void_p, POINTER(CShape), POINTER(CRenewed)],
    "fkv_shape_of": [c_void_p],
    "fkv_last_commit": [c_void_p, WORD],
    "fkv_start": [c_void_p, POINTER(CKeeping)],
    "fkv_stop": [c_void_p, c_uint32],
    "fkv_ask_commit": [c_void_p, WORD],
    "fkv_wait_commit_for": [c_void_p, c_uint64, c_void_p, c_uint32],
    "fkv_keeper_fault": [c_void_p],
    "fkv_stats_of": [c_void_p, POINTER(CStats)],
    "fkv_join": [c_void_p, c_uint64, POINTER(c_void_p)],
    "fkv_leave": [c_void_p, c_void_p], "fkv_abandon": [c_void_p, c_void_p],
    "fkv_settle_for": [c_void_p, c_void_p, c_uint32, c_void_p, c_void_p],
    "fkv_tick": [c_void_p, c_void_p],
    "fkv_put": [c_void_p, c_void_p, c_uint64, c_uint64, POINTER(CUpdate)],
    "fkv_increment": [c_void_p, c_void_p, c_uint64, c_uint64, POINTER(CUpdate)],
    "fkv_raise": [c_void_p, c_void_p, c_uint64, c_uint64, POINTER(CUpdate)],
    "fkv_remove": [c_void_p, c_void_p, c_uint64, POINTER(CUpdate)],
    "fkv_merge_now": [c_void_p, c_void_p, c_uint64, c_uint32, c_uint64, POINTER(CUpdate)],
    "fkv_read": [c_void_p, c_void_p, c_uint64, WORD],
    "fkv_read_many": [c_void_p, c_void_p, WORD, c_size_t, POINTER(CEachRead), c_size_t],
    "fkv_upsert_many": [c_void_p, WORD, c_size_t, WORD, c_size_t, POINTER(CEachUpdate), c_size_t],
    "fkv_add_many": [c_void_p, WORD, c_size_t, WORD, c_size_t, POINTER(CEachUpdate), c_size_t],
    "fkv_sleep": [c_void_p], "fkv_wake": [c_void_p, POINTER(CSeen)],
    "fkv_durable": [c_void_p, WORD], "fkv_serial": [c_void_p, WORD],
    "fkv_meet": [c_void_p, c_void_p],
}
RESULTS = {"fkv_version": c_char_p, "fkv_formats": c_char_p, "fkv_name_of": c_char_p, "fkv_text_of": c_char_p, "fkv_shape_of": CShape,
           "fkv_last_commit": c_uint64, "fkv_abandon": None}


def found() -> ctypes.CDLL:
    """The library of FKV_LIB, a folder or a file; else the system's; else that of the repository, and without proof if no other is there."""
    named = os.environ.get("FKV_LIB")
    if named:
        return ctypes.CDLL(os.path.join(named, NAME) if os.path.isdir(named) else named, use_errno=True)
    try:
        return ctypes.CDLL(NAME, use_errno=True)
    except OSError:
        pass
    built = os.path.join(os.path.dirname(os.path.realpath(__file__)), *[os.pardir] * 4, "build")
    for folder in (built, os.path.join(built, "unproved")):
        path = os.path.join(folder, NAME)
        if os.path.isfile(path):
            if folder != built:
                warnings.warn("fkv: the library is one without proof; `make face` proves it", stacklevel=2)
            return ctypes.CDLL(path, use_errno=True)
    raise ImportError(f"fkv: there is no {NAME}: `make install` puts it where programs find it, and FKV_LIB names another folder that has it")


def loaded() -> ctypes.CDLL:
    """The library, with the types of its calls. One of another version is refused."""
    library = found()
    for name, taken in CALLS.items():
        call = getattr(library, name)
        call.argtypes, call.restype = taken, RESULTS.get(name, c_int32)
    its = library.fkv_version().decode()
    if not its.startswith(SERIES):
        raise ImportError(f"fkv: this package is for a library {SERIES}x, and {NAME} is {its}")
    return library


lib = loaded()


def version() -> str:
    """The library's version, and whether it was proved: "0.1.0 proved", or "0.1.0 without proof, built from commit 4b7e9713"."""
    return str(lib.fkv_version().decode())


def formats() -> list[str]:
    """The names of the formats of files that the library opens."""
    return list(lib.fkv_formats().decode().split())
