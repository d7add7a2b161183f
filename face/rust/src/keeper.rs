//! The keeper's thread.
use crate::errors::{Error, answer};
use crate::raw;
use crate::session::Session;
use crate::store::{OpenFile, Progress};
use std::ffi::{c_int, c_void};
use std::io;
use std::sync::Arc;
use std::time::Duration;
use std::{mem, ptr, slice};

type TellCommitted = Box<dyn FnMut(u64, &[u64]) + Send>;
type TellProgress = Box<dyn FnMut(Progress) + Send>;
type TellStopped = Box<dyn FnMut(Error) + Send>;
type TellUnwarmed = Box<dyn FnMut() + Send>;
type TellUntrimmed = Box<dyn FnMut(Option<io::Error>) + Send>;

/// How the keeper's thread goes. By default it commits on request alone.
///
/// Its hooks are called in the keeper's thread. If one of them panics, then the process is aborted. If one waits for the keeper, then it
/// waits for ever.
#[derive(Default)]
pub struct Keeping {
    commit_each: Duration,
    turn_each: Duration,
    log_commits: u32,
    lets_cool: bool,
    log_bytes: u64,
    hooks: Hooks,
}

/// What is called in the keeper's thread.
#[derive(Default)]
struct Hooks {
    committed: Option<TellCommitted>,
    progress: Option<TellProgress>,
    stopped: Option<TellStopped>,
    unwarmed: Option<TellUnwarmed>,
    untrimmed: Option<TellUntrimmed>,
}

impl Keeping {
    /// Commits each so long, rounded up to milliseconds, unless no session was out since the last commit. A specified store takes 8,190 commits.
    pub fn commit_each(mut self, time: Duration) -> Keeping {
        self.commit_each = time;
        self
    }

    /// Makes so many log commits between two full ones: these are shorter, and the next opening is longer.
    pub fn log_commits(mut self, count: u32) -> Keeping {
        self.log_commits = count;
        self
    }

    /// Rests so long between two turns when nothing is to be done, rounded up to microseconds; by default 500, and up to 20 milliseconds while
    /// nothing happens. While no session is out it rests at least 100 milliseconds, and in a commit at most 50 microseconds.
    pub fn turn_each(mut self, time: Duration) -> Keeping {
        self.turn_each = time;
        self
    }

    /// This is called after each finished commit, in the keeper's thread, with its number, and the last serial of each session that it
    /// keeps. It has to be short, and to wait for no commit.
    pub fn committed(mut self, tell: impl FnMut(u64, &[u64]) + Send + 'static) -> Keeping {
        self.hooks.committed = Some(Box::new(tell));
        self
    }

    /// This is called as a commit begins, and after each of its calls of the file, in the keeper's thread.
    pub fn progress(mut self, tell: impl FnMut(Progress) + Send + 'static) -> Keeping {
        self.hooks.progress = Some(Box::new(tell));
        self
    }

    /// Doesn't keep memory warm: what is only read leaves it some day, and is read from the file then. Else the thread keeps what is about to leave, by
    /// a session of the library's own. That takes log, an eighth of it at most (fkv_start of fkv_posix.h).
    pub fn no_warmer(mut self) -> Keeping {
        self.lets_cool = true;
        self
    }

    /// This is called once, in the keeper's thread, if memory can't be kept warm: the store is a specified one or has a single session in its
    /// file, or is too small.
    pub fn unwarmed(mut self, tell: impl FnMut() + Send + 'static) -> Keeping {
        self.hooks.unwarmed = Some(Box::new(tell));
        self
    }

    /// Gives the log's front back if the log is longer than so many bytes; by default, than twice the records of all keys. That takes commits, a part of
    /// the thread's time, and a record for each key that stands in the front alone (fkv_start of fkv_posix.h).
    pub fn log_bytes(mut self, bytes: u64) -> Keeping {
        self.log_bytes = bytes.max(1);
        self
    }

    /// Never gives the log's front back: the file grows as long as keys are updated.
    pub fn keep_log(mut self) -> Keeping {
        self.log_bytes = u64::MAX;
        self
    }

    /// This is called once, in the keeper's thread, if the log's front can't be given back: with the system's error, or none where the store has no session for it.
    /// And once with `WouldBlock` if the log is four times as long as it may be, since it grows faster than it is swept.
    pub fn untrimmed(mut self, tell: impl FnMut(Option<io::Error>) + Send + 'static) -> Keeping {
        self.hooks.untrimmed = Some(Box::new(tell));
        self
    }

    /// This is called once, in the keeper's thread, as commits end for good or the log is found full: with what [`Session::tick`] is refused
    /// by from then on.
    pub fn stopped(mut self, tell: impl FnMut(Error) + Send + 'static) -> Keeping {
        self.hooks.stopped = Some(Box::new(tell));
        self
    }
}

/// The hooks that the keeper's thread was started with. No other thread has them while it runs.
unsafe fn hooks_of<'a>(user: *mut c_void) -> &'a mut Hooks {
    unsafe { &mut *user.cast::<Hooks>() }
}

extern "C" fn tell_committed(user: *mut c_void, number: u64, points: *const u64, sessions: usize) {
    let (hooks, points) = unsafe { (hooks_of(user), slice::from_raw_parts(points, sessions)) };
    if let Some(tell) = &mut hooks.committed {
        tell(number, points);
    }
}

extern "C" fn tell_progress(user: *mut c_void, progress: *const raw::Progress) {
    let (hooks, progress) = unsafe { (hooks_of(user), &*progress) };
    if let Some(tell) = &mut hooks.progress {
        tell(Progress::of_raw(progress));
    }
}

extern "C" fn tell_stopped(user: *mut c_void, fault: i32) {
    let hooks = unsafe { hooks_of(user) };
    if let (Some(tell), Err(why)) = (&mut hooks.stopped, answer(fault)) {
        tell(why);
    }
}

extern "C" fn tell_unwarmed(user: *mut c_void) {
    if let Some(tell) = &mut unsafe { hooks_of(user) }.unwarmed {
        tell();
    }
}

extern "C" fn tell_untrimmed(user: *mut c_void, why: c_int) {
    if let Some(tell) = &mut unsafe { hooks_of(user) }.untrimmed {
        tell((why != 0).then(|| io::Error::from_raw_os_error(why)));
    }
}

/// A time in units of so many nanoseconds, rounded up, so that no time but 0 becomes 0.
pub(crate) fn whole(time: Duration, unit: u128) -> u32 {
    u32::try_from(time.as_nanos().div_ceil(unit)).unwrap_or(u32::MAX)
}

/// A commit that was asked for. It is of one opening of one store.
#[derive(Clone, Copy, Debug, PartialEq, Eq, PartialOrd, Ord)]
pub struct Ticket {
    opening: u64,
    number: u64,
}

/// The thread that writes the log, reads back what lies in the file alone, and carries commits on. It ends as this is dropped. If no session
/// is out then, and one has done something that no commit keeps, it makes a last commit first. Nobody is told how that has gone:
/// [`Keeper::stop`] tells it.
///
/// A thread can't wait for its own end. If one of its hooks drops or stops this, then the thread goes on, and the file stays open, until
/// the process ends.
pub struct Keeper {
    file: Arc<OpenFile>,
    /// Null once the thread was ended.
    hooks: *mut Hooks,
}

// Its calls may be made by any thread. The hooks are the keeper's thread's alone, until that has ended. They are dropped in any thread.
unsafe impl Send for Keeper {}
unsafe impl Sync for Keeper {}

impl Keeper {
    pub(crate) fn start(file: Arc<OpenFile>, keeping: Keeping) -> Result<Keeper, Error> {
        let hooks = Box::into_raw(Box::new(keeping.hooks));
        let its = raw::Keeping {
            commit_ms: whole(keeping.commit_each, 1_000_000),
            log_commits: keeping.log_commits,
            turn_us: whole(keeping.turn_each, 1_000),
            committed: Some(tell_committed),
            progress: Some(tell_progress),
            user: hooks.cast(),
            stopped: Some(tell_stopped),
            unwarmed: Some(tell_unwarmed),
            no_warmer: u32::from(keeping.lets_cool),
            log_bytes: keeping.log_bytes,
            untrimmed: Some(tell_untrimmed),
        };
        let result = answer(unsafe { raw::fkv_start(file.at, &its) });
        if let Err(why) = result {
            // No thread has them.
            drop(unsafe { Box::from_raw(hooks) });
            return Err(why);
        }
        Ok(Keeper { file, hooks })
    }

    /// Asks for a commit that begins from now on. It is refused by the fault of the thread, if it has one.
    pub fn ask_commit(&self) -> Result<Ticket, Error> {
        let mut number = 0;
        answer(unsafe { raw::fkv_ask_commit(self.file.at, &mut number) })?;
        let opening = self.file.opening;
        Ok(Ticket { opening, number })
    }

    /// The ticket as C knows it. Another store's would tell of a commit that its own hasn't made.
    fn number_of(&self, ticket: Ticket) -> u64 {
        let is_own = ticket.opening == self.file.opening;
        assert!(is_own, "the ticket is of another opening of a store");
        ticket.number
    }

    /// Waits until that commit is finished: what sessions had done when it was asked for survives a crash. `session` is the calling
    /// thread's, if it has one that is awake, and sleeps meanwhile. `PendingLeft`: settle it first; or the fault of the commit.
    ///
    /// # Panics
    /// The ticket is of another opening of a store.
    pub fn wait(&self, ticket: Ticket, session: Option<&mut Session>) -> Result<(), Error> {
        let number = self.number_of(ticket);
        let session = session.map_or(ptr::null_mut(), Session::handle);
        answer(unsafe { raw::fkv_wait_commit(self.file.at, number, session) })?;
        Ok(())
    }

    /// Waits for so long at most, in milliseconds rounded up: `true` if the commit is finished then. Else it goes on, and may be waited for again.
    /// Refused as `wait`.
    ///
    /// # Panics
    /// The ticket is of another opening of a store.
    pub fn wait_for(
        &self,
        ticket: Ticket,
        session: Option<&mut Session>,
        most: Duration,
    ) -> Result<bool, Error> {
        let number = self.number_of(ticket);
        let session = session.map_or(ptr::null_mut(), Session::handle);
        let ms = whole(most, 1_000_000);
        let left = answer(unsafe { raw::fkv_wait_commit_for(self.file.at, number, session, ms) })?;
        Ok(left == 0)
    }

    /// Asks for the next turn at once: for who polls by himself.
    pub fn nudge(&self) {
        unsafe { raw::fkv_nudge(self.file.at) };
    }

    /// Why there are no turns or no commits any more, if so.
    pub fn fault(&self) -> Option<Error> {
        answer(unsafe { raw::fkv_keeper_fault(self.file.at) }).err()
    }

    /// Ends the thread after a last commit, and tells how that has gone. Sessions of other threads that are out have to refresh or sleep
    /// meanwhile. Those of this thread have to sleep, or be dropped, before: else it ends without a last commit after a second, and tells
    /// `HandleOut`. `HandleOut` in a hook of the thread too.
    pub fn stop(mut self) -> Result<(), Error> {
        self.end(raw::STOP_COMMIT)
    }

    /// Ends the thread without a last commit: what no commit has kept is lost, unless another keeper is started before the store is dropped.
    /// `HandleOut` in a hook of the thread.
    pub fn stop_now(mut self) -> Result<(), Error> {
        self.end(raw::STOP_NOW)
    }

    /// Ends the thread and drops its hooks, once: another keeper may have been started by the second time.
    fn end(&mut self, with_commit: u32) -> Result<(), Error> {
        let hooks = mem::replace(&mut self.hooks, ptr::null_mut());
        if hooks.is_null() {
            return Ok(());
        }
        let result = answer(unsafe { raw::fkv_stop(self.file.at, with_commit) });
        // (a session of this thread holds the last commit up, or one of the hooks calls)
        let goes_on = matches!(result, Err(Error::HandleOut))
            && unsafe { raw::fkv_stop(self.file.at, raw::STOP_NOW) } < 0;
        if goes_on {
            // One of the hooks calls. The thread goes on with them and the file.
            mem::forget(Arc::clone(&self.file));
        } else {
            // The thread has ended.
            drop(unsafe { Box::from_raw(hooks) });
        }
        result.map(drop)
    }
}

impl Drop for Keeper {
    fn drop(&mut self) {
        // Nobody is told how it has gone.
        let _ = self.end(raw::STOP_KEEP);
    }
}
