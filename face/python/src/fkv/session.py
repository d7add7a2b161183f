"""A session: reads and updates of a store."""
from __future__ import annotations

import array
import ctypes
import threading
import warnings
from collections.abc import Iterable, Iterator
from contextlib import contextmanager
from types import TracebackType
from typing import TYPE_CHECKING, Any, Optional, TypeVar, Union

from . import _native as native
from ._native import ABSENT, lib
from .errors import Closed, Error, Fault, InUse, check, error_of
from .sizes import words

if TYPE_CHECKING:
    from .store import Store

# So long a call of the library waits before Python sees whether somebody has interrupted it.
SLICE_MS = 100
# Keys of one call of many updates: as many as may be pending.
BATCH = 64
Words = Union[Iterable[int], Any]
T = TypeVar("T")


def _in_c(given: Words) -> tuple[Any, int]:
    """64-bit words as an array for C, and how many: a buffer of such words is taken as it is, other numbers are copied."""
    try:
        view = memoryview(given)
    except TypeError:
        view = memoryview(array.array("Q", given))
    if view.ndim != 1 or view.format.lstrip("@=<") not in ("Q", "L", "N") or view.itemsize != 8:
        raise TypeError("a buffer has to have unsigned words of 64 bits in one dimension, as array('Q') has")
    of = ctypes.c_uint64 * len(view)
    if view.readonly or not view.c_contiguous:
        return of.from_buffer_copy(view.tobytes()), len(view)
    return of.from_buffer(view), len(view)


class Session:
    """Reads and updates a store, for one thread at a time. `Store.join` makes one.

    Its calls wait where they have to, so it reads what it wrote, and its updates take effect in their order. An update is kept by the next
    commit. Once no commit follows any more an update is refused, before it does anything, and reads go on.

    Each call may raise Closed, and Asleep while the session sleeps. An update may raise Full, Spent, DeviceError, Broken and NoKeeper.
    """

    # (else Python would take its keys as those of a list, from 0 on)
    __iter__ = None

    def __init__(self, store: Store, file: int, at: int) -> None:
        self._store, self._file = store, file
        self._at: Optional[int] = at
        self._is_asleep, self._ends = False, 0
        self._lock = threading.RLock()
        self._told, self._value = native.CUpdate(), ctypes.c_uint64()
        self._told_at, self._value_at = ctypes.byref(self._told), ctypes.byref(self._value)

    # ---- What each call does

    def _open(self) -> int:
        if self._at is None:
            raise Closed("the session is closed")
        return self._at

    def _awake(self) -> int:
        """The handle of a session that is awake, for a call."""
        at = self._open()
        if self._is_asleep:
            raise error_of(-Fault.ASLEEP)
        return at

    def _update(self, call: Any, key: int, number: int) -> int:
        if (key | number) >> 64:
            words(key, number)
        with self._lock:
            at = self._awake()
            if self._ends:
                self.tick()
            result = call(self._file, at, key, number, self._told_at)
            if result < 0:
                raise error_of(result)
            self._ends = lib.fkv_tick(self._file, at)
            return self._told.value

    # ---- One key

    def get(self, key: int, default: Optional[T] = None) -> Union[int, Optional[T]]:
        """The key's value, or the default if it has none."""
        if key >> 64:
            words(key)
        with self._lock:
            at = self._awake()
            result = lib.fkv_read(self._file, at, key, self._value_at)
            if result < 0:
                raise error_of(result)
            self._ends = lib.fkv_tick(self._file, at)
            return self._value.value if result == native.FOUND else default

    def put(self, key: int, value: int) -> None:
        """Gives the key this value."""
        self._update(lib.fkv_put, key, value)

    def increment(self, key: int, number: int = 1) -> int:
        """Adds to the key's value, up to 2**64 - 2, and gives what it has left. A key without a value gets the number."""
        return self._update(lib.fkv_increment, key, number)

    def raise_to(self, key: int, number: int) -> int:
        """Raises the key's value to the number, if it is less, and gives what it has left. A key without a value gets the number."""
        return self._update(lib.fkv_raise, key, number)

    def keep(self, key: int) -> Optional[int]:
        """The key's value, by an update that leaves it as it is, or leaves the key without one."""
        left = self._merge(native.KEEP, key, 0)
        return None if left == ABSENT else left

    def min(self, key: int, number: int) -> int:
        """Lowers the key's value to the number, if it is more, and gives what it has left. A key without a value gets the number."""
        return self._merge(native.MIN, key, number)

    def sub(self, key: int, number: int) -> int:
        """Takes the number from the key's value, down to 0, and gives what it has left. A key without a value gets 0."""
        return self._merge(native.SUB, key, number)

    def and_(self, key: int, number: int) -> int:
        """Leaves the bits that the key's value and the number both have, and gives them. A key without a value gets 0."""
        return self._merge(native.AND, key, number)

    def or_(self, key: int, number: int) -> int:
        """Leaves the bits that either has, and 2**64 - 2 where these are all, and gives them. A key without a value gets the number."""
        return self._merge(native.OR, key, number)

    def first(self, key: int, number: int) -> int:
        """Gives the number to a key without a value, and leaves any other as it is. It gives the value that the key has then."""
        return self._merge(native.FIRST, key, number)

    def _merge(self, which: int, key: int, number: int) -> int:
        return self._update(lambda file, at, its, of, told: lib.fkv_merge_now(file, at, its, which, of, told), key, number)

    def remove(self, key: int) -> None:
        """Takes the key's value away, if it has one."""
        self._update(lambda file, at, its, _, told: lib.fkv_remove(file, at, its, told), key, 0)

    def __getitem__(self, key: int) -> int:
        value = self.get(key)
        if value is None:
            raise KeyError(key)
        return value

    def __setitem__(self, key: int, value: int) -> None:
        self.put(key, value)

    def __delitem__(self, key: int) -> None:
        """`remove` of a key that has a value. Another session may take it away between."""
        self[key]
        self.remove(key)

    def __contains__(self, key: int) -> bool:
        return self.get(key) is not None

    # ---- Many keys

    def read_many(self, keys: Words, into: Optional[Any] = None) -> Any:
        """The values of many keys, in their order, with ABSENT for a key that has none: an array('Q'), or the writable buffer `into`.

        Keys and `into` may be any buffer of unsigned 64-bit words: array('Q'), or an array of NumPy's uint64.
        """
        its, count = _in_c(keys)
        out = array.array("Q", bytes(8 * count)) if into is None else into
        values = memoryview(out)
        if values.readonly or len(values) != count or values.itemsize != 8:
            raise ValueError(f"the values want a writable buffer of {count} words")
        told = (native.CEachRead * count)()
        with self._lock:
            at = self._awake()
            check(lib.fkv_read_many(self._file, at, its, count, told, count))
            self._ends = lib.fkv_tick(self._file, at)
        for place, each in enumerate(told):
            values[place] = each.value if check(each.result) == native.FOUND else ABSENT
        return out

    def put_many(self, keys: Words, values: Words) -> None:
        """`put` of many keys, in their order. Buffers are taken as `read_many` takes them. After an error some may be done: see `serial`."""
        self._update_many(lib.fkv_upsert_many, self.put, keys, values)

    def increment_many(self, keys: Words, numbers: Optional[Words] = None) -> None:
        """`increment` of many keys, in their order, each by 1 if no numbers are given. After an error some may be done: see `serial`."""
        self._update_many(lib.fkv_add_many, self.increment, keys, numbers)

    def _update_many(self, call: Any, one: Any, keys: Words, numbers: Optional[Words]) -> None:
        its, count = _in_c(keys)
        of, numbers_count = ((ctypes.c_uint64 * count)(*[1] * count), count) if numbers is None else _in_c(numbers)
        if numbers_count != count:
            raise ValueError(f"{count} keys have {numbers_count} numbers")
        for begin in range(0, count, BATCH):
            batch, its_numbers = its[begin:begin + BATCH], of[begin:begin + BATCH]
            if len(set(batch)) < len(batch):
                # (of a key's two updates in one batch the earlier might wait, and take effect last)
                for key, number in zip(batch, its_numbers):
                    one(key, number)
            else:
                self._update_batch(call, batch, its_numbers)

    def _update_batch(self, call: Any, keys: list[int], numbers: list[int]) -> None:
        count = len(keys)
        of, told = ctypes.c_uint64 * count, (native.CEachUpdate * count)()
        with self._lock:
            at = self._awake()
            self.tick()
            check(call(at, of(*keys), count, of(*numbers), count, told, count))
            results = [it.result for it in told]
            if native.PENDING in results:
                self._settle()
            for it in results:
                check(it)

    # ---- Commits

    def commit(self) -> None:
        """Waits for a commit: all that the session has done survives a crash from then on."""
        with self._lock:
            self._awake()
            self._settle()
            self._store.ask_commit().wait(session=self)

    def _settle(self) -> None:
        while check(lib.fkv_settle_for(self._file, self._awake(), SLICE_MS, None, None)) == native.PENDING:
            pass

    def tick(self) -> None:
        """Lets the store go on, which each call does by itself. It raises why no commit follows any more."""
        with self._lock:
            self._ends = lib.fkv_tick(self._file, self._awake())
            check(self._ends)

    @property
    def serial(self) -> int:
        """The serial of the session's last update, which counts on in all of the store's life."""
        return self._told_by(lib.fkv_serial)

    @property
    def durable(self) -> int:
        """The serial up to which a crash from now on keeps the session's updates: its point in the last finished commit."""
        return self._told_by(lib.fkv_durable)

    def meet(self, other: Session) -> None:
        """Each of the two sessions has then seen what either had seen. So what the one was told as done is in force for the other's later calls."""
        if other is self or other._store is not self._store:
            raise ValueError("the other session has to be another one of the same store")
        first, second = sorted((self, other), key=id)
        with first._lock, second._lock:
            check(lib.fkv_meet(self._open(), other._open()))

    def _told_by(self, call: Any) -> int:
        with self._lock:
            check(call(self._open(), self._value_at))
            return self._value.value

    # ---- Sleep, and the end

    @contextmanager
    def asleep(self) -> Iterator[None]:
        """The session sleeps in the block, so that commits don't wait for it: for a thread that blocks."""
        with self._lock:
            at = self._awake()
            self._settle()
            check(lib.fkv_sleep(at))
            self._is_asleep = True
        try:
            yield
        finally:
            with self._lock:
                if self._at is not None:
                    check(lib.fkv_wake(self._at, native.CSeen()))
                    self._is_asleep = False

    def close(self) -> None:
        """Gives the session back. If what it has pending can't be finished, the keeper gets that, and the error is raised."""
        with self._lock:
            if self._at is None:
                return
            try:
                if not self._is_asleep:
                    self._settle()
                with self._store._held() as file:
                    check(lib.fkv_leave(file, self._at))
                self._at = None
            finally:
                self._abandon(-1)

    def _abandon(self, seconds: float) -> None:
        """Gives the session back without waiting. It isn't, if another thread is in the midst of a call for so long."""
        if self._lock.acquire(timeout=seconds):
            try:
                if self._at is not None:
                    with self._store._held() as file:
                        lib.fkv_abandon(file, self._at)
                    self._at = None
            finally:
                self._lock.release()

    @property
    def closed(self) -> bool:
        return self._at is None

    def __enter__(self) -> Session:
        return self

    def __exit__(self, kind: Optional[type[BaseException]], error: Optional[BaseException], trace: Optional[TracebackType]) -> None:
        self.close()

    def __del__(self) -> None:
        if getattr(self, "_at", None) is not None:
            warnings.warn(f"fkv: a session wasn't closed: {self!r}", ResourceWarning, source=self, stacklevel=2)
            try:
                self._abandon(0)
            except InUse:
                # (the garbage collector has run in a hook: the store's next call gives the session back)
                self._store._orphans.append(self._at)
            except Error:
                pass
