"""How large a store is."""
from __future__ import annotations

from dataclasses import asdict, astuple, dataclass
from typing import Optional

from ._native import CShape, CSize, CWish, lib
from .errors import check


def words(*numbers: int) -> tuple[int, ...]:
    """These numbers, if each is one that 64 bits hold."""
    for it in numbers:
        if it >> 64:
            raise OverflowError(f"{it} isn't from 0 to 2**64 - 1")
    return numbers


@dataclass(frozen=True)
class Wish:
    """What a program wants of a new store. A 0 takes the default."""

    keys: int = 0  # keys that it will have; 65,536
    sessions: int = 0  # threads that use it at once, at most 31; 8
    memory_bytes: int = 0  # memory that it may take once it is open, at most; some 250 bytes for each key
    updates_between_commits: int = 0  # keys that are updated between two commits; all of them


@dataclass(frozen=True)
class Shape:
    """The sizes of a store, as fkv_shape of fkv.h explains them."""

    bucket_bits: int
    page: int
    frames: int
    mutable_pages: int
    sessions: int
    overflow: int
    disk_pages: int

    def in_c(self) -> CShape:
        return CShape(*words(*astuple(self)))


@dataclass(frozen=True)
class Size:
    """What a store of a shape takes, and holds."""

    memory_bytes: int  # while it is open
    opening_bytes: int  # about: at the height of an opening, without the file's bytes
    file_bytes: int  # of its file, at most
    keys: int  # that fit, all but surely
    records: int  # that calls may append in all the store's life


def shape_of(its: CShape) -> Shape:
    return Shape(*(getattr(its, name) for name, _ in CShape._fields_))


def shape_for(wish: Optional[Wish] = None) -> Shape:
    """The shape of a store for what a program wants. BadShape if no store is so large, or memory is too small for the index."""
    shape = CShape()
    of = asdict(wish or Wish())
    words(*of.values())
    check(lib.fkv_shape_for(CWish(**of), shape))
    return shape_of(shape)


def size_of(shape: Shape) -> Size:
    """What a store of this shape takes, and holds. BadShape if a size is outside its limits."""
    size = CSize()
    check(lib.fkv_size_of(shape.in_c(), size))
    return Size(*(getattr(size, name) for name, _ in CSize._fields_))
