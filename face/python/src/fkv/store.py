"""A store in a file, and its keeper."""
from __future__ import annotations

import array
import atexit
import ctypes
import os
import threading
import time
import warnings
import weakref
from collections.abc import Callable, Iterator
from contextlib import contextmanager
from dataclasses import dataclass
from types import TracebackType
from typing import Any, Optional, TypeVar, Union

from . import _native as native
from ._native import lib
from .errors import Closed, Damaged, Error, Fault, InUse, check, error_of
from .session import SLICE_MS, Session
from .sizes import Shape, Wish, shape_for, shape_of, words

Path = Union[str, "os.PathLike[str]"]
T = TypeVar("T")
ANY_SESSION = 2**64 - 1
STOP_NOW, STOP_COMMIT, STOP_KEEP = 0, 1, 2
# Hooks that the library may call, by the store's address: an object that is still to be called must not be freed.
_hooks: dict[int, Any] = {}
_stores: weakref.WeakSet[Store] = weakref.WeakSet()


@dataclass(frozen=True)
class Progress:
    """Long work, and how far it has come: bytes, of so many. The total is 0 of a commit, since nobody knows it."""

    work: str  # "opening", "committing" or "saving"
    done: int
    total: int


@dataclass(frozen=True)
class Commit:
    """A finished commit: its number, 0 of a new store, and the last serial of each session that it keeps."""

    number: int
    points: tuple[int, ...]


# In place of `log_bytes` of Keeping: nothing of the log is given back.
LOG_KEEPS = 2**64 - 1


@dataclass(frozen=True)
class Keeping:
    """How the keeper's thread goes. Its hooks are called in that thread, and make no call of the store: keep them short."""

    commit_ms: int = 0  # a commit each so many milliseconds while a session is joined; 0: on request alone
    log_commits: int = 0  # so many log commits between two full ones
    turn_us: int = 0  # microseconds between two turns when nothing is to be done; 0: 500
    committed: Optional[Callable[[Commit], None]] = None  # after each finished commit
    progress: Optional[Callable[[Progress], None]] = None  # as a commit begins, and after each of its calls of the file
    stopped: Optional[Callable[[Error], None]] = None  # once, as commits end for good, or the log is full
    unwarmed: Optional[Callable[[], None]] = None  # once, if memory can't be kept warm in this store
    warms: bool = True  # memory is kept warm, if it can be
    log_bytes: int = 0  # the log's front is given back if it is longer; 0: than twice the records of all keys, a megabyte at least; LOG_KEEPS: never
    untrimmed: Optional[Callable[[int], None]] = None  # once, if it can't be: by errno, or 0 where the store has no session for it; EAGAIN: if the log grows faster


@dataclass(frozen=True)
class Stats:
    """How a store fares since its opening, as fkv_stats of fkv_posix.h explains it."""

    commits: int
    commits_left: int
    commit_us: int
    commit_bytes: int
    in_hand_us: int
    late: int
    joined: int
    abandoned: int
    turns: int
    helped: int
    cold_reads: int
    fetched: int
    kept: int
    file_bytes: int
    disk_bytes: int
    swept: int
    begin: int
    head: int
    flushed: int
    read_only: int
    tail: int
    overflow: int
    entries: int
    stopped: Optional[Fault]  # why no commit is finished any more, or that the log is full
    waited: tuple[int, ...]  # requests that calls had to wait for: updates by their first reason, reads at 0
    pending: tuple[int, ...]  # those of them that are pending just now


def _progress(call: Optional[Callable[[Progress], None]]) -> Any:
    """The hook for C of one in Python, or none."""
    if call is None:
        return native.PROGRESS()

    def told(_: Any, at: Any) -> None:
        its = at.contents
        call(Progress(("opening", "committing", "saving")[its.work], its.done, its.total))

    return native.PROGRESS(told)


def _hook(thread: threading.local, call: Optional[Callable[[T], None]]) -> Optional[Callable[[T], None]]:
    """A hook that marks its thread meanwhile. It doesn't know the store, so that the store isn't kept by what it keeps."""
    if call is None:
        return None

    def marked(its: T) -> None:
        thread.is_hook = True
        try:
            call(its)
        finally:
            thread.is_hook = False

    return marked


class Ticket:
    """A commit that was asked for."""

    def __init__(self, store: Store, number: int) -> None:
        self._store, self._number = store, number

    def wait(self, timeout: Optional[float] = None, session: Optional[Session] = None) -> bool:
        """Waits until the commit is finished, or for so many seconds: then it is False, and may be waited for again.

        `session` is that of this thread, if it is awake: it sleeps meanwhile, so that the commit doesn't wait for it.
        """
        until = None if timeout is None else time.monotonic() + timeout
        while True:
            left = SLICE_MS if until is None else min(SLICE_MS, max(0, int((until - time.monotonic()) * 1000)))
            with self._store._held() as at:
                if session is None:
                    result = lib.fkv_wait_commit_for(at, self._number, None, left)
                else:
                    with session._lock:
                        result = lib.fkv_wait_commit_for(at, self._number, session._awake(), left)
            if check(result) != native.PENDING:
                return True
            if until is not None and time.monotonic() >= until:
                return False


class Store:
    """An open store, whose file no other process can open. `fkv.open` makes one. Its calls may be made by any thread."""

    def __init__(self, at: int) -> None:
        self._at: Optional[int] = at
        self._calls = threading.Condition()
        self._running = 0
        self._thread = threading.local()
        self._orphans: list[int] = []
        self._sessions: weakref.WeakSet[Session] = weakref.WeakSet()
        _stores.add(self)

    @contextmanager
    def _held(self) -> Iterator[int]:
        """The open file. It isn't closed before the call is over."""
        if getattr(self._thread, "is_hook", False):
            raise InUse("a hook makes no call of its store")
        with self._calls:
            at = self._at
            if at is None:
                raise Closed("the store is closed")
            while self._orphans:
                lib.fkv_abandon(at, self._orphans.pop())
            self._running += 1
        try:
            yield at
        finally:
            with self._calls:
                self._running -= 1
                self._calls.notify_all()

    # ---- The keeper

    def start(self, keeping: Optional[Keeping] = None) -> None:
        """Starts the keeper's thread. InUse if it runs already."""
        how = keeping or Keeping()
        committed, progress, stopped = (_hook(self._thread, it) for it in (how.committed, how.progress, how.stopped))
        unwarmed = _hook(self._thread, how.unwarmed and (lambda _: how.unwarmed()))
        untrimmed = _hook(self._thread, how.untrimmed)

        def tell_commit(_: Any, number: int, points: Any, sessions: int) -> None:
            committed(Commit(number, tuple(points[:sessions])))

        def tell_end(_: Any, result: int) -> None:
            stopped(error_of(result))

        def tell_untrimmed(_: Any, why: int) -> None:
            untrimmed(why)

        its = native.CKeeping(
            how.commit_ms, how.log_commits, how.turn_us, native.COMMITTED(tell_commit) if committed else native.COMMITTED(),
            _progress(progress), None, native.STOPPED(tell_end) if stopped else native.STOPPED(),
            native.UNWARMED(unwarmed) if unwarmed else native.UNWARMED(), int(not how.warms), how.log_bytes,
            native.UNTRIMMED(tell_untrimmed) if untrimmed else native.UNTRIMMED())
        with self._held() as at:
            result = lib.fkv_start(at, its)
            if result == -Fault.HANDLE_TAKEN:
                raise InUse("the keeper's thread runs already")
            check(result)
            # (those of a thread that has just ended may be called still)
            _hooks.setdefault(at, []).append(its)

    def stop(self, commit: bool = True) -> None:
        """Ends the keeper's thread, after a last commit if `commit` says so. Nothing is committed until the next start.

        The last commit waits for each session that is awake: other threads have to make calls of theirs. This thread's own have to sleep
        or leave before: else it raises `InUse` after a second, and the keeper's thread goes on.
        """
        with self._held() as at:
            check(lib.fkv_stop(at, STOP_COMMIT if commit else STOP_NOW))

    @property
    def keeper_fault(self) -> Optional[Fault]:
        """Why the keeper's thread has no turns or commits any more."""
        with self._held() as at:
            result = lib.fkv_keeper_fault(at)
        return Fault(-result) if result else None

    # ---- Sessions and commits

    def join(self, number: Optional[int] = None) -> Session:
        """Gives the caller session `number`, from 0, or the first that nobody has, awake. NoSession if it is none or taken."""
        out = ctypes.c_void_p()
        with self._held() as at:
            check(lib.fkv_join(at, ANY_SESSION if number is None else words(number)[0], out))
            session = Session(self, at, out.value or 0)
            self._sessions.add(session)
        return session

    def ask_commit(self) -> Ticket:
        """Asks for a commit that begins from now on."""
        number = ctypes.c_uint64()
        with self._held() as at:
            check(lib.fkv_ask_commit(at, number))
        return Ticket(self, number.value)

    def commit(self) -> None:
        """Commits, for a thread without a session: what sessions have done survives a crash. They have to tick or sleep meanwhile."""
        self.ask_commit().wait()

    @property
    def last_commit(self) -> Commit:
        """The last finished commit, and the point of each session."""
        points = (ctypes.c_uint64 * native.MOST_SESSIONS)()
        with self._held() as at:
            number = lib.fkv_last_commit(at, points)
            sessions = lib.fkv_shape_of(at).sessions
        return Commit(number, tuple(points[:sessions]))

    # ---- What it holds

    @property
    def shape(self) -> Shape:
        """The store's sizes."""
        with self._held() as at:
            return shape_of(lib.fkv_shape_of(at))

    @property
    def stats(self) -> Stats:
        """How the store fares."""
        its = native.CStats()
        with self._held() as at:
            check(lib.fkv_stats_of(at, its))
        stopped = Fault(-its.stopped) if its.stopped else None
        return Stats(*(getattr(its, name) for name in native.STATS), stopped, tuple(its.waited), tuple(its.pending))

    def pairs(self) -> Iterator[tuple[int, int]]:
        """The pairs of the last finished commit, each key once, in no order. They are read at once; sessions go on meanwhile."""
        keys, values = array.array("Q"), array.array("Q")

        def each(_: Any, key: int, value: int) -> int:
            keys.append(key)
            values.append(value)
            return 0

        with self._held() as at:
            check(lib.fkv_each(at, native.PAIR(each), None))
        return zip(keys, values)

    def save(self, path: Path, progress: Optional[Callable[[Progress], None]] = None) -> None:
        """Makes a backup in a new file, with the last finished commit. FileThere, and other DeviceErrors."""
        with self._held() as at:
            check(lib.fkv_save(at, os.fsencode(path), _progress(_hook(self._thread, progress)), None), os.fspath(path))

    def renew(self, shape: Optional[Shape] = None) -> None:
        """Renews the store in place: it has room and commits anew, the same pairs and points, and its commits count from 1 again.

        Close each session before: InUse else. `shape` is that of the new store, or None for its own. After an error the store is the old one,
        and goes on; after a DeviceError it may have no commits, so open it anew. Full if the new shape is too small.
        """
        with self._held() as at:
            check(lib.fkv_renew_here(at, shape.in_c() if shape else None, None))

    # ---- The end

    def close(self) -> None:
        """Closes the file, after a last commit if the keeper runs and something isn't kept. InUse while a session is out.

        Of another error it is that of the last commit, and the file is closed.
        """
        self._end(lib.fkv_close_file)

    def drop(self) -> None:
        """Closes the file without a last commit: what no commit has kept is lost. InUse while a session is out."""
        self._end(lib.fkv_drop_file)

    def _end(self, call: Callable[[int], int]) -> None:
        if getattr(self._thread, "is_hook", False):
            raise InUse("a hook doesn't close its store")
        with self._calls:
            while self._running:
                self._calls.wait()
            at = self._at
            if at is None:
                return
            while self._orphans:
                lib.fkv_abandon(at, self._orphans.pop())
            result = call(at)
            if result == -Fault.HANDLE_OUT:
                raise error_of(result)
            self._at = None
            its = error_of(result) if result else None
            _hooks.pop(at, None)
            if its:
                raise its

    @property
    def closed(self) -> bool:
        return self._at is None

    def __enter__(self) -> Store:
        return self

    def __exit__(self, kind: Optional[type[BaseException]], error: Optional[BaseException], trace: Optional[TracebackType]) -> None:
        self.close()

    def __del__(self) -> None:
        # (what __init__ hasn't made may be missing; in a hook, or with a session out, the file stays open until the process ends)
        if getattr(self, "_at", None) is not None:
            warnings.warn(f"fkv: a store wasn't closed: {self!r}", ResourceWarning, source=self, stacklevel=2)
            try:
                self.close()
            except Error:
                pass


def make_file(path: Path, shape: Shape) -> None:
    """Makes the file of a new living store. FileThere if there is one of this name; BadShape."""
    check(lib.fkv_make_file(os.fsencode(path), shape.in_c()), os.fspath(path))


def open(path: Path, wish: Optional[Wish] = None, keeping: Optional[Keeping] = Keeping(), *, make: bool = True, is_spread: bool = False,
         mapped: bool = False, progress: Optional[Callable[[Progress], None]] = None, warm: Optional[int] = None) -> Store:
    """Opens the store in this file, and starts its keeper, unless `keeping` is None.

    If there is no file, and `make` is true, it is made for the wish. A store that is there keeps its own sizes.

    `is_spread` is for keys that are hashes, or random: say the same at each opening. `mapped` is for a file that memory can't hold.
    `warm` is how many of the newest records memory gets at most: as many as fit, if it isn't said.
    AlreadyOpen, NoFile, NoRight, other DeviceErrors; NotAStore, Damaged, BadShape, NoMemory.
    """
    name, out, opened = os.fsencode(path), ctypes.c_void_p(), native.COpened()
    how = native.CHow(int(is_spread), int(mapped), _progress(progress), None, ctypes.pointer(opened), 0 if warm is None else warm or native.COLD)
    result = lib.fkv_open_file(name, how, out)
    if make and result == -Fault.DEVICE and not os.path.exists(path):
        result = lib.fkv_make_file(name, shape_for(wish).in_c())
        # (another process may just have made it)
        if result == 0 or os.path.exists(path):
            result = lib.fkv_open_file(name, how, out)
    if result:
        its = error_of(result, os.fspath(path))
        if isinstance(its, Damaged):
            its.damage, its.damaged_at = opened.damage, opened.damaged_at
        raise its
    store = Store(out.value or 0)
    if keeping is not None:
        try:
            store.start(keeping)
        except BaseException:
            store.drop()
            raise
    return store


def renew_file(old: Path, new: Path, shape: Optional[Shape] = None, *, spread_now: bool = False) -> int:
    """Renews the store of the old file in a new one: it has room and commits anew, the same pairs and points. Gives the new file's bytes.

    `shape` is that of the new store, or None for the old one's. `spread_now` is for a store that was opened with `is_spread`: the new one is
    opened without from then on. AlreadyOpen if the old store is open; FileThere if there is a new file; Full if the new shape is too small.
    """
    told = native.CRenewed()
    its = shape.in_c() if shape else None
    result = lib.fkv_renew_file(os.fsencode(old), os.fsencode(new), its, int(spread_now), told)
    if result:
        error = error_of(result, os.fspath(old))
        if isinstance(error, Damaged):
            error.damage, error.damaged_at = told.damage, told.damaged_at
        raise error
    return int(told.size)


def _close_all() -> None:
    """Closes what is open as the interpreter ends: a hook couldn't be called after that. A session in the midst of a call keeps its store open."""
    for store in list(_stores):
        for session in list(store._sessions):
            session._abandon(1.0)
        try:
            store.close()
        except Error:
            pass


def _forget_all() -> None:
    """In a forked child no store is open. A lock that another thread had as it was forked would stay shut for ever."""
    for store in list(_stores):
        store._at, store._calls, store._running = None, threading.Condition(), 0
        for session in list(store._sessions):
            session._at, session._lock = None, threading.RLock()


atexit.register(_close_all)
os.register_at_fork(after_in_child=_forget_all)
