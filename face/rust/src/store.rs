//! A store in a file.
use crate::errors::{Error, answer};
use crate::keeper::{Keeper, Keeping};
use crate::raw;
use crate::session::Session;
use crate::sizes::Wish;
use std::ffi::{CString, c_void};
use std::os::unix::ffi::OsStrExt;
use std::path::Path;
use std::sync::Arc;
use std::sync::atomic::{AtomicU64, Ordering};
use std::{io, ptr};

/// How large a store is. The library makes living stores. It opens specified ones too, of which some sizes have lower limits.
#[derive(Clone, Copy, Debug, PartialEq, Eq)]
pub struct Shape {
    /// The index has 2^bucket_bits buckets of seven entries: 0 to 24, of a specified store to 10.
    pub bucket_bits: u64,
    /// Records in a page: a power of two from 4 to 65,536, of a specified store to 1,024. If a page holds as many records as keys are updated during a
    /// commit, an update seldom waits for room.
    pub page: u64,
    /// Pages in memory: a power of two from 2 to 4,096, of a specified store to 64.
    pub frames: u64,
    /// Pages whose records are updated in place: 1 to frames - 1.
    pub mutable_pages: u64,
    /// Sessions: 1 to 31. The file has one more, which is the library's.
    pub sessions: u64,
    /// Buckets that full ones overflow to: 0 to 2^24, of a specified store to 1,024. A file that is made has 65 more for each of its sessions, which
    /// calls leave to polls, as far as there may be so many. [`Store::shape`] is without these.
    pub overflow: u64,
    /// Pages that the log may have in the file: 1 to 2^30, of a specified store to 65,536. 0 for a new file's 2^30. Of n sessions of a living
    /// file calls leave the last 65·n² records to polls.
    pub disk_pages: u64,
}

impl Shape {
    pub(crate) fn to_raw(self) -> raw::Shape {
        let Shape {
            bucket_bits,
            page,
            frames,
            mutable_pages,
            sessions,
            overflow,
            disk_pages,
        } = self;
        raw::Shape {
            bucket_bits,
            page,
            frames,
            mutable_pages,
            sessions,
            overflow,
            disk_pages,
        }
    }

    pub(crate) fn of_raw(its: raw::Shape) -> Shape {
        let raw::Shape {
            bucket_bits,
            page,
            frames,
            mutable_pages,
            sessions,
            overflow,
            disk_pages,
        } = its;
        Shape {
            bucket_bits,
            page,
            frames,
            mutable_pages,
            sessions,
            overflow,
            disk_pages,
        }
    }
}

/// A finished commit.
#[derive(Clone, Debug, PartialEq, Eq)]
pub struct Commit {
    /// Its number; 0 in a new store.
    pub number: u64,
    /// The last serial of each session that it keeps.
    pub points: Vec<u64>,
}

/// What work is told of.
#[derive(Clone, Copy, Debug, PartialEq, Eq)]
pub enum Work {
    /// The file is read.
    Opening,
    /// A commit is written.
    Committing,
    /// A backup is copied.
    Saving,
}

/// How far long work has come.
#[derive(Clone, Copy, Debug, PartialEq, Eq)]
pub struct Progress {
    /// Which work it is.
    pub work: Work,
    /// Bytes that were read or copied, or written since the commit began.
    pub done: u64,
    /// Bytes of the file. None of a commit, since nobody knows how many it takes.
    pub total: Option<u64>,
}

impl Progress {
    /// What C tells.
    pub(crate) fn of_raw(its: &raw::Progress) -> Progress {
        match its.work {
            0 => Progress {
                work: Work::Opening,
                done: its.done,
                total: Some(its.total),
            },
            1 => Progress {
                work: Work::Committing,
                done: its.done,
                total: None,
            },
            _ => Progress {
                work: Work::Saving,
                done: its.done,
                total: Some(its.total),
            },
        }
    }
}

/// How a store is opened. The default is the usual way.
#[derive(Default)]
pub struct How<'a> {
    is_spread: bool,
    is_mapped: bool,
    warm: u64,
    progress: Option<&'a mut dyn FnMut(Progress)>,
}

impl<'a> How<'a> {
    /// Keys are taken as they are, without being spread: for keys that are hashes, or random. The index goes by their low bits. Say the
    /// same at each opening: a store that is opened the other way finds none of its keys, and nothing tells so.
    pub fn keys_are_spread(mut self) -> How<'a> {
        self.is_spread = true;
        self
    }

    /// The file is mapped and not read, for one that memory can't hold. A bad disk then kills the process.
    pub fn mapped(mut self) -> How<'a> {
        self.is_mapped = true;
        self
    }

    /// Memory gets at most so many of the newest records, and not as many as fit. They are found there from the beginning on. With 0 it gets
    /// none, and each first read waits for the keeper.
    pub fn warm(mut self, records: u64) -> How<'a> {
        self.warm = if records == 0 { u64::MAX } else { records };
        self
    }

    /// This is called while the file is read. If it panics, then the process is aborted.
    pub fn progress(mut self, tell: &'a mut dyn FnMut(Progress)) -> How<'a> {
        self.progress = Some(tell);
        self
    }
}

extern "C" fn tell_work(user: *mut c_void, progress: *const raw::Progress) {
    // `open_with` and `save` hand both out, and they live as long as their call.
    let tell = unsafe { &mut *user.cast::<&mut dyn FnMut(Progress)>() };
    tell(Progress::of_raw(unsafe { &*progress }));
}

extern "C" fn tell_pair(user: *mut c_void, key: u64, value: u64) -> i32 {
    // `each` hands it out, and it lives as long as that call.
    let tell = unsafe { &mut *user.cast::<&mut dyn FnMut(u64, u64)>() };
    tell(key, value);
    0
}

/// How many files this process has opened.
static OPENINGS: AtomicU64 = AtomicU64::new(0);

/// The open file, which the last of those that share it closes.
pub(crate) struct OpenFile {
    pub(crate) at: *mut raw::File,
    /// The number of this opening, which no other one of this process has.
    pub(crate) opening: u64,
}

// The calls that take a file may be made by any thread.
unsafe impl Send for OpenFile {}
unsafe impl Sync for OpenFile {}

impl Drop for OpenFile {
    fn drop(&mut self) {
        // Sessions share it, so none is out. So does a keeper, whose thread has ended.
        unsafe { raw::fkv_close_file(self.at) };
    }
}

/// A store in a file that this process alone has open. Clones are the same store.
#[derive(Clone)]
pub struct Store {
    file: Arc<OpenFile>,
}

pub(crate) fn path_for_c(path: &Path) -> Result<CString, Error> {
    CString::new(path.as_os_str().as_bytes())
        .map_err(|_| Error::Device(io::ErrorKind::InvalidInput.into()))
}

impl Store {
    /// Makes the file of a new living store of this shape, which isn't open after the call. A crash leaves the whole file, or none of this name.
    ///
    /// `BadShape`, `Memory`, or `Device`: with `AlreadyExists` there is a file of this name, and it stays as it is. If the sync of its folder
    /// alone has failed, the new file stays in place. An opening syncs the folder again.
    pub fn make(path: impl AsRef<Path>, shape: &Shape) -> Result<(), Error> {
        let path = path_for_c(path.as_ref())?;
        answer(unsafe { raw::fkv_make_file(path.as_ptr(), &shape.to_raw()) })?;
        Ok(())
    }

    /// Opens the store in this file, or makes the file first if there is none. `wish` says how large it is to be. A store that is there keeps
    /// its own shape. Refused as [`Store::open`], [`Shape::for_wish`] and [`Store::make`].
    pub fn open_or_make(path: impl AsRef<Path>, wish: &Wish) -> Result<Store, Error> {
        let path = path_for_c(path.as_ref())?;
        let mut at = ptr::null_mut();
        answer(unsafe { raw::fkv_open_or_make(path.as_ptr(), &wish.to_raw(), &mut at) })?;
        Ok(Store::of_opened(at))
    }

    fn of_opened(at: *mut raw::File) -> Store {
        let opening = OPENINGS.fetch_add(1, Ordering::Relaxed);
        Store {
            file: Arc::new(OpenFile { at, opening }),
        }
    }

    pub(crate) fn raw(&self) -> *mut raw::File {
        self.file.at
    }

    /// Opens the store in this file, in the usual way.
    ///
    /// `NotAStore`, `Damaged`, `Memory`, or `Device`: with `WouldBlock` it is open already, in this process or another one.
    pub fn open(path: impl AsRef<Path>) -> Result<Store, Error> {
        Store::open_with(path, How::default())
    }

    /// Opens the store in this file. No commit is made before [`Store::start`].
    pub fn open_with(path: impl AsRef<Path>, mut how: How<'_>) -> Result<Store, Error> {
        let path = path_for_c(path.as_ref())?;
        let mut opened = raw::Opened::default();
        let mut at = ptr::null_mut();
        let user: *mut c_void = match &mut how.progress {
            Some(tell) => ptr::from_mut(tell).cast(),
            None => ptr::null_mut(),
        };
        let its = raw::How {
            keys: u32::from(how.is_spread),
            mapped: u32::from(how.is_mapped),
            progress: if user.is_null() {
                None
            } else {
                Some(tell_work)
            },
            user,
            opened: &mut opened,
            warm: how.warm,
        };
        let result = unsafe { raw::fkv_open_file(path.as_ptr(), &its, &mut at) };
        if result < 0 {
            return Err(Error::of(result, &opened));
        }
        Ok(Store::of_opened(at))
    }

    /// The store's shape: a file that is made for it is no smaller.
    pub fn shape(&self) -> Shape {
        Shape::of_raw(unsafe { raw::fkv_shape_of(self.file.at) })
    }

    /// Makes a backup of the open store: a new file, put in place whole, with the last finished commit or the one that is just being
    /// finished. Sessions go on in memory meanwhile, and turns of the keeper wait until the file is copied. `tell` is called as bytes are; if
    /// it panics, then the process is aborted. `Memory`, or `Device`: with `AlreadyExists` there is a file of this name, and it stays as it
    /// is.
    pub fn save(
        &self,
        path: impl AsRef<Path>,
        mut tell: impl FnMut(Progress),
    ) -> Result<(), Error> {
        let path = path_for_c(path.as_ref())?;
        let mut tell: &mut dyn FnMut(Progress) = &mut tell;
        let user = ptr::from_mut(&mut tell).cast();
        answer(unsafe { raw::fkv_save(self.file.at, path.as_ptr(), Some(tell_work), user) })?;
        Ok(())
    }

    /// Calls `tell` for each pair: those of the last finished commit, or of the one that is just being finished, each key once, in no order.
    /// Sessions go on meanwhile, and turns of the keeper wait until the file is read. It takes memory for the file, for its renewal, and for
    /// an opening. If `tell` panics, then the process is aborted. `Memory`, `Device`.
    pub fn each(&self, mut tell: impl FnMut(u64, u64)) -> Result<(), Error> {
        let mut tell: &mut dyn FnMut(u64, u64) = &mut tell;
        let user = ptr::from_mut(&mut tell).cast();
        answer(unsafe { raw::fkv_each(self.file.at, tell_pair, user) })?;
        Ok(())
    }

    /// The last finished commit.
    pub fn last_commit(&self) -> Commit {
        let mut points = [0; raw::MOST_SESSIONS];
        let number = unsafe { raw::fkv_last_commit(self.file.at, points.as_mut_ptr()) };
        Commit {
            number,
            points: points[..self.shape().sessions as usize].to_vec(),
        }
    }

    /// Session `number`, from 0, awake, until it is dropped. `NoSession`; `HandleTaken` where it is out, or was dropped with requests that
    /// are pending still.
    pub fn join(&self, number: u64) -> Result<Session, Error> {
        let mut at = ptr::null_mut();
        answer(unsafe { raw::fkv_join(self.file.at, number, &mut at) })?;
        Ok(Session::new(Arc::clone(&self.file), at))
    }

    /// Any session that is free. `NoSession` where none is.
    pub fn join_any(&self) -> Result<Session, Error> {
        self.join(raw::ANY_SESSION)
    }

    /// Starts the keeper's thread. `HandleTaken` where it runs already; `Device` where the system starts none.
    pub fn start(&self, keeping: Keeping) -> Result<Keeper, Error> {
        Keeper::start(Arc::clone(&self.file), keeping)
    }
}

/// The word under which a key lies in a store that spreads its keys.
pub fn spread(key: u64) -> u64 {
    unsafe { raw::fkv_spread(key) }
}

/// The key that lies under such a word.
pub fn spread_back(word: u64) -> u64 {
    unsafe { raw::fkv_spread_back(word) }
}
