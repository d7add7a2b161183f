//! A session: what reads and updates a store.
use crate::errors::{Error, answer};
use crate::keeper::whole;
use crate::raw;
use crate::store::OpenFile;
use std::ffi::c_void;
use std::ptr;
use std::sync::Arc;
use std::time::Duration;

/// So many keys go to the library in one call, so that their answers have room on the stack.
const AT_ONCE: usize = 64;

/// A call of many keys, by slices.
fn in_c(
    call: raw::UpdateMany,
) -> impl Fn(*mut raw::Session, &[u64], &[u64], &mut [raw::EachUpdate]) -> i32 {
    move |at, keys, numbers, told| {
        let (its, of, into) = (keys.as_ptr(), numbers.as_ptr(), told.as_mut_ptr());
        unsafe { call(at, its, keys.len(), of, numbers.len(), into, told.len()) }
    }
}

/// What an update makes of its key's value and its number, beside [`Session::add`] and [`Session::max`].
#[derive(Clone, Copy, Debug, PartialEq, Eq)]
#[repr(u32)]
pub enum Merge {
    /// Leaves the value as it is, and a key without one without. The number is not looked at.
    Keep = 0,
    /// Lowers the value to the number. A key without a value gets the number.
    Min = 1,
    /// Takes the number from the value, down to 0. A key without a value gets 0.
    Sub = 2,
    /// Leaves the bits that both have. A key without a value gets 0.
    And = 3,
    /// Leaves the bits that either has, and 2^64 - 2 where these are all. A key without a value gets the number.
    Or = 4,
    /// Gives the number to a key without a value, and leaves any other as it is.
    First = 5,
}

/// What a read has come to.
#[derive(Clone, Copy, Debug, PartialEq, Eq)]
pub enum Read {
    /// The key has this value.
    Found(u64),
    /// The key has no value.
    Absent,
    /// The record lies in the file alone: a later poll tells of this ticket.
    Pending(ReadTicket),
}

impl Read {
    fn of(result: i32, value: u64) -> Result<Read, Error> {
        Ok(match answer(result)? {
            raw::FOUND => Read::Found(value),
            raw::NONE => Read::Absent,
            _ => Read::Pending(ReadTicket(value)),
        })
    }
}

/// The name of a read that is pending.
#[derive(Clone, Copy, Debug, PartialEq, Eq)]
pub struct ReadTicket(pub u64);

/// What an update has come to. Its serial says whether a commit keeps it: [`Session::durable`].
#[derive(Clone, Copy, Debug, PartialEq, Eq)]
pub enum Update {
    /// It is done. An add, a max or a merge has left this value; of the others it is 0.
    Done {
        /// Its serial.
        serial: u64,
        /// What an add, a max or a merge has left; of a keep 2^64 - 1 where the key has no value.
        value: u64,
    },
    /// It is accepted, and takes effect at a later poll.
    Pending {
        /// Its serial.
        serial: u64,
        /// Why it waits.
        reason: Reason,
    },
}

impl Update {
    fn of(result: i32, serial: u64, value: u64, reason: u64) -> Result<Update, Error> {
        Ok(match answer(result)? {
            raw::PENDING => Update::Pending {
                serial,
                reason: Reason::of(reason),
            },
            _ => Update::Done { serial, value },
        })
    }

    /// Its serial: the session's updates count from 1, in all of the store's life.
    pub fn serial(self) -> u64 {
        match self {
            Update::Done { serial, .. } | Update::Pending { serial, .. } => serial,
        }
    }
}

/// What an update has left.
#[derive(Clone, Copy, Debug, PartialEq, Eq)]
pub struct Made {
    /// Its serial says whether a commit keeps it: [`Session::durable`].
    pub serial: u64,
    /// What an increment or a raise has left; of the others it is 0.
    pub value: u64,
}

/// Why an update is pending. One that finds the index or the log full at its call is refused. One that finds it full at a poll stays pending,
/// and only a call that waits finds that out.
#[derive(Clone, Copy, Debug, PartialEq, Eq)]
pub enum Reason {
    /// Its record is about to become read-only.
    Fuzzy,
    /// Its record may lie in the file alone.
    Disk,
    /// A commit holds its bucket.
    Latch,
    /// Another session was quicker: poll at once.
    Contended,
    /// The next page isn't open yet: the keeper is behind.
    NoRoom,
}

impl Reason {
    fn of(number: u64) -> Reason {
        match number {
            1 => Reason::Fuzzy,
            2 => Reason::Disk,
            3 => Reason::Latch,
            4 => Reason::Contended,
            _ => Reason::NoRoom,
        }
    }
}

/// A request that was pending and is finished.
#[derive(Clone, Copy, Debug, PartialEq, Eq)]
pub enum Finished {
    /// An update.
    Updated {
        /// Its serial.
        serial: u64,
        /// What an add, a max or a merge has left; of a keep 2^64 - 1 where the key has no value.
        value: u64,
    },
    /// A read.
    Read {
        /// Its name.
        ticket: ReadTicket,
        /// What it has found.
        value: Option<u64>,
    },
}

impl Finished {
    fn of_raw(its: &raw::Finished) -> Finished {
        match its.kind {
            0 => Finished::Updated {
                serial: its.name,
                value: its.value,
            },
            1 => Finished::Read {
                ticket: ReadTicket(its.name),
                value: Some(its.value),
            },
            _ => Finished::Read {
                ticket: ReadTicket(its.name),
                value: None,
            },
        }
    }
}

/// How far a commit has come.
#[derive(Clone, Copy, Debug, PartialEq, Eq)]
pub enum Phase {
    /// No commit runs.
    Rest,
    /// Sessions hear of it.
    Prepare,
    /// Sessions go over to the next version.
    InProgress,
    /// It waits for pending requests of the version before.
    WaitPending,
    /// It is written.
    WaitFlush,
}

/// How far the store has come, as a session sees it.
#[derive(Clone, Copy, Debug, PartialEq, Eq)]
pub struct Seen {
    /// The phase of the commit in hand.
    pub phase: Phase,
    /// The commit in hand, or the one that comes next.
    pub version: u64,
}

impl Seen {
    fn of_raw(its: &raw::Seen) -> Seen {
        let phase = match its.phase {
            0 => Phase::Rest,
            1 => Phase::Prepare,
            2 => Phase::InProgress,
            3 => Phase::WaitPending,
            _ => Phase::WaitFlush,
        };
        Seen {
            phase,
            version: its.version,
        }
    }
}

extern "C" fn tell_finished(user: *mut c_void, finished: *const raw::Finished) {
    // `settle` hands both out, and they live as long as its call.
    let tell = unsafe { &mut *user.cast::<&mut dyn FnMut(Finished)>() };
    tell(Finished::of_raw(unsafe { &*finished }));
}

/// A session. It may go to another thread, and two threads can't use it at once.
///
/// While it is awake, refresh it every 64 calls or so: nothing of the store moves on past it. Let it sleep before its thread blocks.
///
/// As it is dropped it leaves. If requests of it are pending, the keeper finishes them, or the next one if none runs. Until all are
/// finished nobody joins it. Commits don't wait for its refresh, and keep its updates. While an update of it waits for a full index or
/// log, no commit finishes. If a call of the file has failed, what is pending is lost.
///
/// ```compile_fail,E0277
/// fn shared<T: Sync>() {}
/// shared::<fkv::Session>();
/// ```
pub struct Session {
    file: Arc<OpenFile>,
    at: *mut raw::Session,
}

// The handle may move to any thread. The pointer keeps it from being shared by two.
unsafe impl Send for Session {}

impl Session {
    pub(crate) fn new(file: Arc<OpenFile>, at: *mut raw::Session) -> Session {
        Session { file, at }
    }

    /// Reads a key. `Asleep`, `PendingFull`.
    pub fn get(&mut self, key: u64) -> Result<Read, Error> {
        let mut value = 0;
        let told = unsafe { raw::fkv_get(self.at, key, &mut value) };
        Read::of(told, value)
    }

    /// Reads many keys: one after the other, as [`Session::get`] does, with the answer or the refusal of each.
    ///
    /// This is for a store whose index and records don't fit the processor's caches. With 2^20 keys it is 1.2 to 1.7 times as fast as
    /// single calls; a store that fits them goes better by these. The session doesn't refresh meanwhile: refresh it between calls of 64
    /// keys or so.
    pub fn get_many(&mut self, keys: &[u64]) -> Vec<Result<Read, Error>> {
        let mut answers = Vec::with_capacity(keys.len());
        for keys in keys.chunks(AT_ONCE) {
            let (mut told, count) = ([raw::EachRead::default(); AT_ONCE], keys.len());
            // There is room enough, so each read has its answer.
            unsafe { raw::fkv_get_many(self.at, keys.as_ptr(), count, told.as_mut_ptr(), AT_ONCE) };
            answers.extend(
                told[..count]
                    .iter()
                    .map(|its| Read::of(its.result, its.value)),
            );
        }
        answers
    }

    /// Lets the store go on: call it between calls, as often as you like. Each 64th tick, or each 8th while a commit waits for the session,
    /// polls and refreshes it. What a poll of it has finished isn't told. `Asleep`, and why no commit is finished any more: the keeper's
    /// fault, `VersionsSpent` once the store has taken its last commit, `NoKeeper`. `LogFull` once an update has found the log full: commits of a
    /// living store go on then, and it is to be renewed.
    pub fn tick(&mut self) -> Result<(), Error> {
        answer(unsafe { raw::fkv_tick(self.file.at, self.at) })?;
        Ok(())
    }

    fn update_now(
        &mut self,
        call: impl FnOnce(*mut raw::File, *mut raw::Session, *mut raw::Update) -> i32,
    ) -> Result<Made, Error> {
        let mut its = raw::Update::default();
        answer(call(self.file.at, self.at, &mut its))?;
        let (serial, value) = (its.serial, its.value);
        Ok(Made { serial, value })
    }

    /// Gives the key this value, 0 to 2^64 - 2, and waits where [`Session::upsert`] would be pending.
    ///
    /// A session that makes no other calls than this, [`Session::increment`], [`Session::raise`], [`Session::remove`] and [`Session::read`]
    /// reads what it wrote, and its updates take effect in their order. They want a keeper. What other calls have left pending may take
    /// effect later than these: then a key may end with the earlier value. It is finished by a call that waits, and isn't told.
    ///
    /// Refused as [`Session::upsert`], but for `PendingFull`, and as [`Session::settle`]: then the update was accepted, and stays pending.
    pub fn put(&mut self, key: u64, value: u64) -> Result<Made, Error> {
        self.update_now(|file, at, told| unsafe { raw::fkv_put(file, at, key, value, told) })
    }

    /// Adds to the key's value, up to 2^64 - 2, and waits as [`Session::put`] does. A key without a value gets the number.
    pub fn increment(&mut self, key: u64, number: u64) -> Result<Made, Error> {
        self.update_now(|file, at, told| unsafe { raw::fkv_increment(file, at, key, number, told) })
    }

    /// Raises the key's value to the number, and waits as [`Session::put`] does. A key without a value gets it.
    pub fn raise(&mut self, key: u64, number: u64) -> Result<Made, Error> {
        self.update_now(|file, at, told| unsafe { raw::fkv_raise(file, at, key, number, told) })
    }

    /// Merges the number into the key's value, as the merge's text says, and waits as [`Session::put`] does. A [`Merge::Keep`] tells 2^64 - 1
    /// where the key has no value.
    pub fn merge_now(&mut self, key: u64, which: Merge, number: u64) -> Result<Made, Error> {
        let which = which as u32;
        self.update_now(|file, at, told| unsafe {
            raw::fkv_merge_now(file, at, key, which, number, told)
        })
    }

    /// Takes the key's value away, and waits as [`Session::put`] does.
    pub fn remove(&mut self, key: u64) -> Result<Made, Error> {
        self.update_now(|file, at, told| unsafe { raw::fkv_remove(file, at, key, told) })
    }

    /// [`Session::read`] of many keys. Those in memory are read many at once.
    pub fn read_many(&mut self, keys: &[u64]) -> Result<Vec<Option<u64>>, Error> {
        let mut told = vec![raw::EachRead::default(); keys.len()];
        let (at, count) = (told.as_mut_ptr(), keys.len());
        answer(unsafe {
            raw::fkv_read_many(self.file.at, self.at, keys.as_ptr(), count, at, count)
        })?;
        let found =
            |its: &raw::EachRead| Ok((answer(its.result)? == raw::FOUND).then_some(its.value));
        told.iter().map(found).collect()
    }

    /// Reads a key, and waits where it lies in the file alone. Then the session settles, and what else was pending isn't told. Refused as
    /// [`Session::get`] and [`Session::settle`] are. If waiting is refused, the read stays pending.
    pub fn read(&mut self, key: u64) -> Result<Option<u64>, Error> {
        let mut value = 0;
        let told = answer(unsafe { raw::fkv_read(self.file.at, self.at, key, &mut value) })?;
        Ok(if told == raw::FOUND {
            Some(value)
        } else {
            None
        })
    }

    fn update(
        &mut self,
        call: impl FnOnce(*mut raw::Session, *mut raw::Update) -> i32,
    ) -> Result<Update, Error> {
        let mut its = raw::Update::default();
        let told = call(self.at, &mut its);
        Update::of(told, its.serial, its.value, its.reason)
    }

    fn update_many(
        &mut self,
        pairs: &[(u64, u64)],
        call: impl Fn(*mut raw::Session, &[u64], &[u64], &mut [raw::EachUpdate]) -> i32,
    ) -> Vec<Result<Update, Error>> {
        let mut answers = Vec::with_capacity(pairs.len());
        for pairs in pairs.chunks(AT_ONCE) {
            let (mut keys, mut numbers) = ([0; AT_ONCE], [0; AT_ONCE]);
            for (at, &pair) in pairs.iter().enumerate() {
                (keys[at], numbers[at]) = pair;
            }
            let (mut told, count) = ([raw::EachUpdate::default(); AT_ONCE], pairs.len());
            // There is room enough, and as many numbers as keys, so each update has its answer.
            call(self.at, &keys[..count], &numbers[..count], &mut told);
            let of =
                |its: &raw::EachUpdate| Update::of(its.result, its.serial, its.value, its.reason);
            answers.extend(told[..count].iter().map(of));
        }
        answers
    }

    /// Gives the key this value, 0 to 2^64 - 2. `Asleep`, `ValueReserved`, `PendingFull`, `SerialsSpent`, `IndexFull`, `LogFull`, as all
    /// updates.
    pub fn upsert(&mut self, key: u64, value: u64) -> Result<Update, Error> {
        self.update(|at, told| unsafe { raw::fkv_upsert(at, key, value, told) })
    }

    /// Adds to the key's value, up to 2^64 - 2. A key without a value gets the number.
    pub fn add(&mut self, key: u64, number: u64) -> Result<Update, Error> {
        self.update(|at, told| unsafe { raw::fkv_add(at, key, number, told) })
    }

    /// Gives many keys their values: one after the other, as [`Session::upsert`] does, with the answer or the refusal of each. See
    /// [`Session::get_many`].
    pub fn upsert_many(&mut self, pairs: &[(u64, u64)]) -> Vec<Result<Update, Error>> {
        self.update_many(pairs, in_c(raw::fkv_upsert_many))
    }

    /// Adds to the values of many keys: one after the other, as [`Session::add`] does, with the answer or the refusal of each. See
    /// [`Session::get_many`].
    pub fn add_many(&mut self, pairs: &[(u64, u64)]) -> Vec<Result<Update, Error>> {
        self.update_many(pairs, in_c(raw::fkv_add_many))
    }

    /// Raises the key's value to the number. A key without a value gets it.
    pub fn max(&mut self, key: u64, number: u64) -> Result<Update, Error> {
        self.update(|at, told| unsafe { raw::fkv_max(at, key, number, told) })
    }

    /// Leaves the key's value as it is: an update that tells what a read would, or 2^64 - 1 where there is no value.
    pub fn keep(&mut self, key: u64) -> Result<Update, Error> {
        self.update(|at, told| unsafe { raw::fkv_keep(at, key, told) })
    }

    /// Lowers the key's value to the number. A key without a value gets it.
    pub fn min(&mut self, key: u64, number: u64) -> Result<Update, Error> {
        self.merge(key, Merge::Min, number)
    }

    /// Takes the number from the key's value, down to 0. A key without a value gets 0.
    pub fn sub(&mut self, key: u64, number: u64) -> Result<Update, Error> {
        self.merge(key, Merge::Sub, number)
    }

    /// Leaves the bits that the key's value and the number both have. A key without a value gets 0.
    pub fn and(&mut self, key: u64, number: u64) -> Result<Update, Error> {
        self.merge(key, Merge::And, number)
    }

    /// Leaves the bits that the key's value or the number has, and 2^64 - 2 where these are all. A key without a value gets the number.
    pub fn or(&mut self, key: u64, number: u64) -> Result<Update, Error> {
        self.merge(key, Merge::Or, number)
    }

    /// Gives the number to a key without a value, and leaves any other as it is.
    pub fn first(&mut self, key: u64, number: u64) -> Result<Update, Error> {
        self.merge(key, Merge::First, number)
    }

    /// Merges the number into the key's value, as the merge's text says.
    pub fn merge(&mut self, key: u64, which: Merge, number: u64) -> Result<Update, Error> {
        let which = which as u32;
        self.update(|at, told| unsafe { raw::fkv_merge(at, key, which, number, told) })
    }

    /// Merges numbers into the values of many keys: one after the other, as [`Session::merge`] does, with the answer or the refusal of each.
    /// See [`Session::get_many`].
    pub fn merge_many(&mut self, which: Merge, pairs: &[(u64, u64)]) -> Vec<Result<Update, Error>> {
        let which = which as u32;
        self.update_many(pairs, |at, keys, numbers, told| {
            let (its, of, into) = (keys.as_ptr(), numbers.as_ptr(), told.as_mut_ptr());
            unsafe {
                raw::fkv_merge_many(
                    at,
                    which,
                    its,
                    keys.len(),
                    of,
                    numbers.len(),
                    into,
                    told.len(),
                )
            }
        })
    }

    /// Takes the key's value away.
    pub fn delete(&mut self, key: u64) -> Result<Update, Error> {
        self.update(|at, told| unsafe { raw::fkv_delete(at, key, told) })
    }

    /// Sees how far the store has come, and takes up a commit. `Asleep`.
    pub fn refresh(&mut self) -> Result<Seen, Error> {
        let mut seen = raw::Seen::default();
        answer(unsafe { raw::fkv_refresh(self.at, &mut seen) })?;
        Ok(Seen::of_raw(&seen))
    }

    /// Tries pending requests once more, tells those that are finished, and says how many are left. `Asleep`.
    pub fn poll(&mut self, mut tell: impl FnMut(Finished)) -> Result<usize, Error> {
        let mut into = [raw::Finished::default(); raw::MOST_PENDING];
        let mut count = 0;
        let left =
            answer(unsafe { raw::fkv_poll(self.at, into.as_mut_ptr(), into.len(), &mut count) })?;
        into[..count as usize]
            .iter()
            .for_each(|it| tell(Finished::of_raw(it)));
        Ok(left as usize)
    }

    /// Polls until nothing is pending, with refreshes between, and tells what is finished. It wants a keeper, whose turns this thread makes
    /// as it waits. `Asleep`; `NoKeeper` where none runs; the keeper's fault where that can't go on; in a specified store `LogFull` or `IndexFull`,
    /// within about a second, where an update will never find room. If `tell` panics, then the process is aborted.
    pub fn settle(&mut self, mut tell: impl FnMut(Finished)) -> Result<(), Error> {
        let mut tell: &mut dyn FnMut(Finished) = &mut tell;
        let user = ptr::from_mut(&mut tell).cast();
        answer(unsafe { raw::fkv_settle(self.file.at, self.at, Some(tell_finished), user) })?;
        Ok(())
    }

    /// Settles for so long at most, in milliseconds rounded up: `true` if nothing is pending then. Else the session may go on, or settle again.
    /// With no time it polls once. Refused as `settle`, and aborted as that.
    pub fn settle_for(
        &mut self,
        most: Duration,
        mut tell: impl FnMut(Finished),
    ) -> Result<bool, Error> {
        let mut tell: &mut dyn FnMut(Finished) = &mut tell;
        let user = ptr::from_mut(&mut tell).cast();
        let ms = whole(most, 1_000_000);
        let left = answer(unsafe {
            raw::fkv_settle_for(self.file.at, self.at, ms, Some(tell_finished), user)
        })?;
        Ok(left == 0)
    }

    /// Leaves, so that nobody waits for it: before its thread blocks. `Asleep`, `PendingLeft`.
    pub fn sleep(&mut self) -> Result<(), Error> {
        answer(unsafe { raw::fkv_sleep(self.at) })?;
        Ok(())
    }

    /// Comes back. `Awake`.
    pub fn wake(&mut self) -> Result<Seen, Error> {
        let mut seen = raw::Seen::default();
        answer(unsafe { raw::fkv_wake(self.at, &mut seen) })?;
        Ok(Seen::of_raw(&seen))
    }

    /// The serial up to which its updates are in a commit that is whole in the file: a crash from now on keeps them.
    pub fn durable(&mut self) -> Result<u64, Error> {
        let mut serial = 0;
        answer(unsafe { raw::fkv_durable(self.at, &mut serial) })?;
        Ok(serial)
    }

    /// The last serial that it has given, and 0 if it has given none. Its next update has the one after it. After an opening that is its point.
    pub fn serial(&mut self) -> Result<u64, Error> {
        let mut serial = 0;
        answer(unsafe { raw::fkv_serial(self.at, &mut serial) })?;
        Ok(serial)
    }

    /// It meets another session of the store: each has then seen what either had seen. So what the one was told as done is in force for each later call of
    /// the other.
    ///
    /// # Panics
    ///
    /// The other session is of another opening of a store.
    pub fn meet(&mut self, other: &mut Session) -> Result<(), Error> {
        let is_own = Arc::ptr_eq(&self.file, &other.file);
        assert!(is_own, "the session is of another opening of a store");
        answer(unsafe { raw::fkv_meet(self.at, other.at) })?;
        Ok(())
    }

    /// Settles, asks for a commit, and sleeps until it is finished: a crash from then on keeps all that it has done. What was pending
    /// isn't told. Refused as [`Session::settle`], and by the fault of the commit. No commit finishes past a session that is awake and doesn't
    /// refresh.
    pub fn commit(&mut self) -> Result<(), Error> {
        answer(unsafe { raw::fkv_commit_and_wait(self.file.at, self.at) })?;
        Ok(())
    }

    /// The handle, for a commit that it waits for.
    pub(crate) fn handle(&mut self) -> *mut raw::Session {
        self.at
    }
}

impl Drop for Session {
    fn drop(&mut self) {
        unsafe {
            // What is pending is the keeper's from now on: to settle might never end.
            if raw::fkv_leave(self.file.at, self.at) < 0 {
                raw::fkv_abandon(self.file.at, self.at);
            }
        }
    }
}
