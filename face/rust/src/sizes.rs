//! The shape of a store for what a program wishes, and what a store of a shape takes and holds.
use crate::errors::{Error, answer};
use crate::raw;
use crate::store::Shape;

/// What a program wants of a new store. By default it is one of 65,536 keys and 8 sessions, with as much memory as these want.
///
/// Two rules make a store fast. Memory holds all records between two touches of a key: a key's first update after a commit appends a record,
/// so a key that is touched at random wants memory for several records of each key. And the index has buckets for all keys.
#[derive(Clone, Copy, Debug, Default, PartialEq, Eq)]
pub struct Wish {
    keys: u64,
    sessions: u64,
    memory_bytes: u64,
    updates_between_commits: u64,
}

impl Wish {
    /// Keys that the store will have.
    pub fn keys(mut self, count: u64) -> Wish {
        self.keys = count;
        self
    }

    /// Threads that use it at once, at most 31. A turn of the keeper takes 0.1 microseconds for each.
    pub fn sessions(mut self, count: u64) -> Wish {
        self.sessions = count;
        self
    }

    /// Memory that it may take once it is open, at most.
    pub fn memory_bytes(mut self, count: u64) -> Wish {
        self.memory_bytes = count;
        self
    }

    /// Keys that are updated between two commits; by default all of them.
    pub fn updates_between_commits(mut self, count: u64) -> Wish {
        self.updates_between_commits = count;
        self
    }

    pub(crate) fn to_raw(self) -> raw::Wish {
        raw::Wish {
            keys: self.keys,
            sessions: self.sessions,
            memory_bytes: self.memory_bytes,
            updates_between_commits: self.updates_between_commits,
            log_bytes: 0,
        }
    }
}

/// What a store of a shape takes, and holds.
#[derive(Clone, Copy, Debug, PartialEq, Eq)]
pub struct Size {
    /// Bytes of memory while it is open, with the copy that a full commit makes.
    pub memory_bytes: u64,
    /// About so many bytes at the height of an opening, where all these keys are there. The file's bytes come on top.
    pub opening_bytes: u64,
    /// Bytes of its file, at most. It grows as the log does: 24 bytes a record.
    pub file_bytes: u64,
    /// Keys that fit, all but surely.
    pub keys: u64,
    /// Records that calls may append in all the store's life. Others are left to polls.
    pub records: u64,
}

impl Shape {
    /// The shape of a store for what a program wants. `BadShape`: there are more keys or sessions than any store has, or memory is too small
    /// for the index.
    pub fn for_wish(wish: &Wish) -> Result<Shape, Error> {
        let mut shape = raw::Shape::default();
        answer(unsafe { raw::fkv_shape_for(&wish.to_raw(), &mut shape) })?;
        Ok(Shape::of_raw(shape))
    }

    /// What a store of this shape takes, and holds. `BadShape`, `Memory`.
    pub fn size(&self) -> Result<Size, Error> {
        let mut size = raw::Size::default();
        answer(unsafe { raw::fkv_size_of(&self.to_raw(), &mut size) })?;
        Ok(Size {
            memory_bytes: size.memory_bytes,
            opening_bytes: size.opening_bytes,
            file_bytes: size.file_bytes,
            keys: size.keys,
            records: size.records,
        })
    }
}
