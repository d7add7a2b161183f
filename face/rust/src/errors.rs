//! Why a call is refused.
use crate::raw;
use std::{error, ffi::CStr, fmt, io};

/// Why a call is refused. Each has the number of its fault in fkv.h.
#[derive(Debug)]
pub enum Error {
    /// A size of the shape is outside its limits.
    BadShape,
    /// 2^64 - 1 is no value.
    ValueReserved,
    /// 64 requests of the session are pending: settle it, and call again.
    PendingFull,
    /// The index has no room for another home of keys.
    IndexFull,
    /// The log has no room for another record, and never will have.
    LogFull,
    /// The store has taken its last commit.
    VersionsSpent,
    /// The session has taken its last serial.
    SerialsSpent,
    /// The last epoch is reached.
    EpochsSpent,
    /// No drain slot is free.
    DrainFull,
    /// A commit runs.
    CommitRunning,
    /// The session has pending requests: settle it first.
    PendingLeft,
    /// The session sleeps.
    Asleep,
    /// The store commits no more, since the file has failed before.
    Broken,
    /// The system has refused a call of the file, for this reason.
    Device(io::Error),
    /// The file is no store's.
    NotAStore,
    /// The file is a store's, and this part of it is damaged.
    Damaged(Damage, u64),
    /// Memory was refused.
    Memory,
    /// The store has no such session, or none that is free.
    NoSession,
    /// The session is awake.
    Awake,
    /// More than eight ranges of lost records are in hand, or the last full commit is too old.
    LostFull,
    /// A session is out still; or a hook would end the thread that calls it.
    HandleOut,
    /// The session is out already, or a keeper runs already.
    HandleTaken,
    /// A room is too small.
    RoomSmall,
    /// No keeper's thread runs: start it first.
    NoKeeper,
    /// No merge has this number.
    NoMerge,
    /// A number that this crate doesn't know.
    Unknown(i32),
}

/// What part of a file is damaged. The number beside it says which.
#[derive(Clone, Copy, Debug, PartialEq, Eq)]
pub enum Damage {
    /// A slot of the manifest.
    Manifest,
    /// A triple of the index.
    Triple,
    /// The record at an address.
    Record,
    /// The link of the record at an address.
    Link,
    /// A bucket that is full.
    Full,
}

impl Damage {
    fn of(number: u64) -> Damage {
        match number {
            1 => Damage::Manifest,
            2 => Damage::Triple,
            3 => Damage::Record,
            4 => Damage::Link,
            _ => Damage::Full,
        }
    }
}

impl Error {
    /// The error of a result below 0. What the system has refused is taken from errno.
    pub(crate) fn of(result: i32, opened: &raw::Opened) -> Error {
        match -result {
            1 => Error::BadShape,
            2 => Error::ValueReserved,
            3 => Error::PendingFull,
            4 => Error::IndexFull,
            5 => Error::LogFull,
            6 => Error::VersionsSpent,
            7 => Error::SerialsSpent,
            8 => Error::EpochsSpent,
            9 => Error::DrainFull,
            10 => Error::CommitRunning,
            11 => Error::PendingLeft,
            12 => Error::Asleep,
            13 => Error::Broken,
            14 => Error::Device(io::Error::last_os_error()),
            15 => Error::NotAStore,
            16 => Error::Damaged(Damage::of(opened.damage), opened.damaged_at),
            18 => Error::Memory,
            19 => Error::NoSession,
            20 => Error::Awake,
            21 => Error::LostFull,
            22 => Error::HandleOut,
            23 => Error::HandleTaken,
            24 => Error::RoomSmall,
            25 => Error::NoKeeper,
            26 => Error::NoMerge,
            _ => Error::Unknown(result),
        }
    }

    /// The number of its fault.
    pub fn number(&self) -> i32 {
        match self {
            Error::BadShape => 1,
            Error::ValueReserved => 2,
            Error::PendingFull => 3,
            Error::IndexFull => 4,
            Error::LogFull => 5,
            Error::VersionsSpent => 6,
            Error::SerialsSpent => 7,
            Error::EpochsSpent => 8,
            Error::DrainFull => 9,
            Error::CommitRunning => 10,
            Error::PendingLeft => 11,
            Error::Asleep => 12,
            Error::Broken => 13,
            Error::Device(_) => 14,
            Error::NotAStore => 15,
            Error::Damaged(_, _) => 16,
            Error::Memory => 18,
            Error::NoSession => 19,
            Error::Awake => 20,
            Error::LostFull => 21,
            Error::HandleOut => 22,
            Error::HandleTaken => 23,
            Error::RoomSmall => 24,
            Error::NoKeeper => 25,
            Error::NoMerge => 26,
            Error::Unknown(result) => -result,
        }
    }

    /// The name of its fault, as fkv.h has it.
    pub fn name(&self) -> &'static str {
        // It gives a text that ends with a 0, stays for good, and is ASCII.
        let name = unsafe { CStr::from_ptr(raw::fkv_name_of(self.number())) };
        name.to_str().unwrap_or("Unknown")
    }

    /// What it says to people, as a sentence: what was refused, and what helps.
    pub fn text(&self) -> &'static str {
        // As of the name.
        let text = unsafe { CStr::from_ptr(raw::fkv_text_of(self.number())) };
        text.to_str().unwrap_or("Unknown fault.")
    }
}

impl fmt::Display for Error {
    fn fmt(&self, f: &mut fmt::Formatter<'_>) -> fmt::Result {
        match self {
            Error::Device(why) => write!(f, "{}: {why}", self.name()),
            Error::Damaged(damage, at) => write!(f, "{}: {damage:?} {at}", self.name()),
            Error::Unknown(result) => write!(f, "{} {result}", self.name()),
            _ => f.write_str(self.name()),
        }
    }
}

impl error::Error for Error {
    fn source(&self) -> Option<&(dyn error::Error + 'static)> {
        match self {
            Error::Device(why) => Some(why),
            _ => None,
        }
    }
}

/// The answer of a call, or why it was refused.
pub(crate) fn answer(result: i32) -> Result<i32, Error> {
    if result < 0 {
        Err(Error::of(result, &raw::Opened::default()))
    } else {
        Ok(result)
    }
}
