//! A new store's bytes, of an old one's.
use crate::errors::Error;
use crate::raw;
use crate::store::{Shape, Store, path_for_c};
use std::path::Path;

/// How a renewal places the old store's keys.
#[derive(Clone, Copy, Debug, PartialEq, Eq)]
pub enum RenewedKeys {
    /// As they lie: the new store is opened as the old one.
    AsTheyLie,
    /// Each is spread: for an old store that is opened with [`How::keys_are_spread`](crate::How::keys_are_spread). The new one is opened
    /// without it. Nothing tells whether keys lie spread already, and such keys would be spread twice.
    SpreadNow,
}

/// The bytes of a new store that is a renewal of an old one: its points, and just its keys with their values, as commit 1. So a store that
/// has no room or no commits left lives on. `bytes` are all bytes of the old store's file. `shape` is the new one's, which is a living store
/// then, or `None` for the old one's sizes and class. Here its sessions are all of the file's, with the library's own, which is the last, and
/// its overflow buckets are all, with those that calls leave to polls. The caller writes the new file, and syncs it and its folder.
///
/// `BadShape`, `NotAStore`, `Damaged`, `Memory`; where the shape is too small `IndexFull`, `LogFull`, `NoSession`.
pub fn renew(bytes: &[u8], shape: Option<&Shape>, keys: RenewedKeys) -> Result<Vec<u8>, Error> {
    let shape = shape.map_or(raw::Shape::default(), |its| its.to_raw());
    let mut told = raw::Renewed::default();
    let mut room = Vec::new();
    // The first call tells how many bytes there are.
    let mut result = renew_into(bytes, &shape, keys, &mut told, &mut room);
    if result == -raw::ROOM_SMALL {
        room.resize(told.size as usize, 0);
        result = renew_into(bytes, &shape, keys, &mut told, &mut room);
    }
    if result < 0 {
        return Err(refusal(result, &told));
    }
    Ok(room)
}

/// Renews the store of one file in a new one, as [`renew`] does, and puts that in place whole. Here `shape` is as of [`Store::make`]. The old
/// file is locked meanwhile, and stays as it is. Refused as [`renew`], and by `Device`: with `WouldBlock` the old store is open, with
/// `AlreadyExists` there is a file of the new name.
pub fn renew_file(
    old: impl AsRef<Path>,
    new: impl AsRef<Path>,
    shape: Option<&Shape>,
    keys: RenewedKeys,
) -> Result<(), Error> {
    let (old, new) = (path_for_c(old.as_ref())?, path_for_c(new.as_ref())?);
    let shape = shape.map_or(raw::Shape::default(), |its| its.to_raw());
    let mut told = raw::Renewed::default();
    let keys = u32::from(keys == RenewedKeys::SpreadNow);
    let result =
        unsafe { raw::fkv_renew_file(old.as_ptr(), new.as_ptr(), &shape, keys, &mut told) };
    if result < 0 {
        return Err(refusal(result, &told));
    }
    Ok(())
}

impl Store {
    /// Renews the open store in place, so that it lives on under its own name when it has no room or no commits left. Each session was dropped
    /// before. If a keeper runs, a last commit is made if something isn't kept, and the keeper goes on afterwards. `shape` is the new
    /// one, or `None` for its own. A crash leaves the old store or the new one, with the same pairs and points. Commits count from 1 again.
    /// A session that is joined meanwhile waits.
    ///
    /// `HandleOut` while a session is out; `NoKeeper` where something isn't kept and no keeper runs; the fault of the last commit; refused as
    /// [`renew`]. The store is the old one then, and goes on. `Device`: the same, but if the folder's sync alone has failed, the new store has
    /// the name, and has to be opened anew.
    pub fn renew(&self, shape: Option<&Shape>) -> Result<(), Error> {
        let shape = shape.map_or(raw::Shape::default(), |its| its.to_raw());
        let mut told = raw::Renewed::default();
        let result = unsafe { raw::fkv_renew_here(self.raw(), &shape, &mut told) };
        if result < 0 {
            return Err(refusal(result, &told));
        }
        Ok(())
    }
}

fn refusal(result: i32, told: &raw::Renewed) -> Error {
    let opened = raw::Opened {
        damage: told.damage,
        damaged_at: told.damaged_at,
        ..raw::Opened::default()
    };
    Error::of(result, &opened)
}

fn renew_into(
    bytes: &[u8],
    shape: &raw::Shape,
    keys: RenewedKeys,
    told: &mut raw::Renewed,
    room: &mut [u8],
) -> i32 {
    let keys = u32::from(keys == RenewedKeys::SpreadNow);
    // The pointers are of slices, which are never null.
    unsafe {
        raw::fkv_renew(
            bytes.as_ptr(),
            bytes.len(),
            shape,
            keys,
            told,
            room.as_mut_ptr(),
            room.len(),
        )
    }
}
