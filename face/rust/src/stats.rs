//! How a store fares.
use crate::errors::{Error, answer};
use crate::raw;
use crate::store::Store;
use std::time::Duration;

/// How a store fares since its opening.
#[derive(Clone, Copy, Debug, PartialEq, Eq)]
pub struct Stats {
    /// The number of the last finished commit.
    pub commits: u64,
    /// So many more the store takes.
    pub commits_left: u64,
    /// How long the last one took; none before the first since the opening.
    pub commit_time: Option<Duration>,
    /// Bytes that were written meanwhile.
    pub commit_bytes: u64,
    /// How long the commit in hand goes on already, if there is one.
    pub in_hand: Option<Duration>,
    /// A bit for each session that may hold it up: [`Session::tick`](crate::Session::tick) and the calls that wait haven't refreshed it since
    /// that began.
    pub late: u64,
    /// A bit for each session that is out.
    pub joined: u64,
    /// A bit for each that was dropped, and has requests pending.
    pub abandoned: u64,
    /// Turns of the keeper.
    pub turns: u64,
    /// Of which so many were made by threads of sessions that waited.
    pub helped: u64,
    /// Records that were read back from the file.
    pub cold_reads: u64,
    /// Records that the system was asked for ahead of their reads, by [`Session::read_many`](crate::Session::read_many) and by single reads.
    pub fetched: u64,
    /// Records that the library has kept in memory, each by an update of its own session.
    pub kept: u64,
    /// Bytes of the file.
    pub file_bytes: u64,
    /// Bytes that it takes on the disk: what was given back of the log's front takes none.
    pub disk_bytes: u64,
    /// Records that sweeps of the log's front have read.
    pub swept: u64,
    /// The address at which the log begins: no record below it counts any more. Records have addresses in the order in which they were made.
    pub begin: u64,
    /// Records below this address are read from the file.
    pub head: u64,
    /// Records below it are in the file, and synced.
    pub flushed: u64,
    /// Records below it aren't updated in place.
    pub read_only: u64,
    /// The next record's address.
    pub tail: u64,
    /// Overflow buckets of the index that are taken: calls of a living store take the shape's `overflow`, polls the rest.
    pub overflow: u64,
    /// Entries of the index that were taken at the opening, or as the last full commit since copied it. None is given back.
    pub entries: u64,
    /// The number of the fault for which no commit is finished any more; 0 while commits go on.
    pub stopped: i32,
    /// Requests that calls had to wait for: updates by the number of their first [`Reason`](crate::Reason) in C, and reads at 0.
    pub waited: [u64; 6],
    /// Those of them that are pending just now: calls wait for them, or were refused to.
    pub pending: [u64; 6],
}

impl Store {
    /// How the store fares. `Device` where the system doesn't tell the file's size.
    pub fn stats(&self) -> Result<Stats, Error> {
        let mut its = raw::Stats::default();
        answer(unsafe { raw::fkv_stats_of(self.raw(), &mut its) })?;
        let time = |us: u64| (us > 0).then(|| Duration::from_micros(us));
        Ok(Stats {
            commits: its.commits,
            commits_left: its.commits_left,
            commit_time: time(its.commit_us),
            commit_bytes: its.commit_bytes,
            in_hand: time(its.in_hand_us),
            late: its.late,
            joined: its.joined,
            abandoned: its.abandoned,
            turns: its.turns,
            helped: its.helped,
            cold_reads: its.cold_reads,
            fetched: its.fetched,
            kept: its.kept,
            file_bytes: its.file_bytes,
            disk_bytes: its.disk_bytes,
            swept: its.swept,
            begin: its.begin,
            head: its.head,
            flushed: its.flushed,
            read_only: its.read_only,
            tail: its.tail,
            overflow: its.overflow,
            entries: its.entries,
            stopped: -its.stopped,
            waited: its.waited,
            pending: its.pending,
        })
    }
}
