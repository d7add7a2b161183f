//! The calls of fkv.h and fkv_posix.h, as C declares them.
use std::ffi::{c_char, c_int, c_void};

#[repr(C)]
#[derive(Clone, Copy, Default)]
pub struct Shape {
    pub bucket_bits: u64,
    pub page: u64,
    pub frames: u64,
    pub mutable_pages: u64,
    pub sessions: u64,
    pub overflow: u64,
    pub disk_pages: u64,
}

#[repr(C)]
#[derive(Default)]
pub struct Opened {
    pub number: u64,
    pub damage: u64,
    pub damaged_at: u64,
    pub entries: u64,
}

#[repr(C)]
#[derive(Default)]
pub struct Renewed {
    pub size: u64,
    pub damage: u64,
    pub damaged_at: u64,
}

#[repr(C)]
#[derive(Default)]
pub struct Update {
    pub serial: u64,
    pub value: u64,
    pub reason: u64,
}

#[repr(C)]
#[derive(Clone, Copy, Default)]
pub struct EachRead {
    pub value: u64,
    pub result: i32,
}

#[repr(C)]
#[derive(Clone, Copy, Default)]
pub struct EachUpdate {
    pub serial: u64,
    pub value: u64,
    pub reason: u64,
    pub result: i32,
}

#[repr(C)]
#[derive(Clone, Copy, Default)]
pub struct Finished {
    pub kind: u64,
    pub name: u64,
    pub value: u64,
}

#[repr(C)]
#[derive(Default)]
pub struct Seen {
    pub phase: u64,
    pub version: u64,
}

#[repr(C)]
pub struct Progress {
    pub work: u32,
    pub done: u64,
    pub total: u64,
}

/// One word, which C fills and reads.
#[repr(C)]
pub struct Session {
    _at: *mut c_void,
}

/// An open store in a file. C alone knows what it has.
#[repr(C)]
pub struct File {
    _private: [u8; 0],
}

/// The call that updates many keys.
pub type UpdateMany = unsafe extern "C" fn(
    *mut Session,
    *const u64,
    usize,
    *const u64,
    usize,
    *mut EachUpdate,
    usize,
) -> i32;

pub type TellProgress = extern "C" fn(*mut c_void, *const Progress);
pub type TellCommitted = extern "C" fn(*mut c_void, u64, *const u64, usize);
pub type TellFinished = extern "C" fn(*mut c_void, *const Finished);
pub type TellStopped = extern "C" fn(*mut c_void, i32);
pub type TellUnwarmed = extern "C" fn(*mut c_void);
pub type TellUntrimmed = extern "C" fn(*mut c_void, c_int);
pub type TellPair = extern "C" fn(*mut c_void, u64, u64) -> i32;

#[repr(C)]
pub struct Wish {
    pub keys: u64,
    pub sessions: u64,
    pub memory_bytes: u64,
    pub updates_between_commits: u64,
    pub log_bytes: u64,
}

#[repr(C)]
#[derive(Default)]
pub struct Size {
    pub memory_bytes: u64,
    pub opening_bytes: u64,
    pub file_bytes: u64,
    pub keys: u64,
    pub records: u64,
}

#[repr(C)]
#[derive(Default)]
pub struct Stats {
    pub commits: u64,
    pub commits_left: u64,
    pub commit_us: u64,
    pub commit_bytes: u64,
    pub in_hand_us: u64,
    pub late: u64,
    pub joined: u64,
    pub abandoned: u64,
    pub turns: u64,
    pub helped: u64,
    pub cold_reads: u64,
    pub fetched: u64,
    pub kept: u64,
    pub file_bytes: u64,
    pub disk_bytes: u64,
    pub swept: u64,
    pub begin: u64,
    pub head: u64,
    pub flushed: u64,
    pub read_only: u64,
    pub tail: u64,
    pub overflow: u64,
    pub entries: u64,
    pub stopped: i32,
    pub waited: [u64; REASONS],
    pub pending: [u64; REASONS],
}

#[repr(C)]
pub struct How {
    pub keys: u32,
    pub mapped: u32,
    pub progress: Option<TellProgress>,
    pub user: *mut c_void,
    pub opened: *mut Opened,
    pub warm: u64,
}

#[repr(C)]
pub struct Keeping {
    pub commit_ms: u32,
    pub log_commits: u32,
    pub turn_us: u32,
    pub committed: Option<TellCommitted>,
    pub progress: Option<TellProgress>,
    pub user: *mut c_void,
    pub stopped: Option<TellStopped>,
    pub unwarmed: Option<TellUnwarmed>,
    pub no_warmer: u32,
    pub log_bytes: u64,
    pub untrimmed: Option<TellUntrimmed>,
}

pub const REASONS: usize = 6;
pub const MOST_SESSIONS: usize = 32;
pub const MOST_PENDING: usize = 64;
pub const ANY_SESSION: u64 = u64::MAX;

pub const ROOM_SMALL: i32 = 24;

pub const FOUND: i32 = 1;
pub const NONE: i32 = 2;
pub const PENDING: i32 = 3;

pub const STOP_NOW: u32 = 0;
pub const STOP_COMMIT: u32 = 1;
pub const STOP_KEEP: u32 = 2;

unsafe extern "C" {
    pub fn fkv_name_of(result: i32) -> *const c_char;
    pub fn fkv_text_of(result: i32) -> *const c_char;
    pub fn fkv_shape_for(wish: *const Wish, shape: *mut Shape) -> i32;
    pub fn fkv_size_of(shape: *const Shape, size: *mut Size) -> i32;
    pub fn fkv_open_or_make(path: *const c_char, wish: *const Wish, out: *mut *mut File) -> i32;
    pub fn fkv_stats_of(file: *mut File, stats: *mut Stats) -> i32;
    pub fn fkv_renew(
        bytes: *const u8,
        size: usize,
        shape: *const Shape,
        keys: u32,
        told: *mut Renewed,
        into: *mut u8,
        room: usize,
    ) -> i32;
    pub fn fkv_get(session: *mut Session, key: u64, value: *mut u64) -> i32;
    pub fn fkv_upsert(session: *mut Session, key: u64, value: u64, told: *mut Update) -> i32;
    pub fn fkv_add(session: *mut Session, key: u64, number: u64, told: *mut Update) -> i32;
    pub fn fkv_max(session: *mut Session, key: u64, number: u64, told: *mut Update) -> i32;
    pub fn fkv_delete(session: *mut Session, key: u64, told: *mut Update) -> i32;
    pub fn fkv_merge(
        session: *mut Session,
        key: u64,
        which: u32,
        number: u64,
        told: *mut Update,
    ) -> i32;
    pub fn fkv_keep(session: *mut Session, key: u64, told: *mut Update) -> i32;
    pub fn fkv_get_many(
        session: *mut Session,
        keys: *const u64,
        count: usize,
        told: *mut EachRead,
        room: usize,
    ) -> i32;
    pub fn fkv_upsert_many(
        session: *mut Session,
        keys: *const u64,
        count: usize,
        values: *const u64,
        values_count: usize,
        told: *mut EachUpdate,
        room: usize,
    ) -> i32;
    pub fn fkv_add_many(
        session: *mut Session,
        keys: *const u64,
        count: usize,
        numbers: *const u64,
        numbers_count: usize,
        told: *mut EachUpdate,
        room: usize,
    ) -> i32;
    pub fn fkv_merge_many(
        session: *mut Session,
        which: u32,
        keys: *const u64,
        count: usize,
        numbers: *const u64,
        numbers_count: usize,
        told: *mut EachUpdate,
        room: usize,
    ) -> i32;
    pub fn fkv_refresh(session: *mut Session, seen: *mut Seen) -> i32;
    pub fn fkv_poll(
        session: *mut Session,
        into: *mut Finished,
        room: usize,
        count: *mut u64,
    ) -> i32;
    pub fn fkv_sleep(session: *mut Session) -> i32;
    pub fn fkv_wake(session: *mut Session, seen: *mut Seen) -> i32;
    pub fn fkv_durable(session: *mut Session, serial: *mut u64) -> i32;
    pub fn fkv_serial(session: *mut Session, serial: *mut u64) -> i32;
    pub fn fkv_meet(session: *mut Session, other: *mut Session) -> i32;
    pub fn fkv_spread(key: u64) -> u64;
    pub fn fkv_spread_back(word: u64) -> u64;
    pub fn fkv_version() -> *const c_char;
    pub fn fkv_formats() -> *const c_char;

    pub fn fkv_make_file(path: *const c_char, shape: *const Shape) -> i32;
    pub fn fkv_open_file(path: *const c_char, how: *const How, out: *mut *mut File) -> i32;
    pub fn fkv_close_file(file: *mut File) -> i32;
    pub fn fkv_save(
        file: *mut File,
        path: *const c_char,
        progress: Option<TellProgress>,
        user: *mut c_void,
    ) -> i32;
    pub fn fkv_each(file: *mut File, each: TellPair, user: *mut c_void) -> i32;
    pub fn fkv_renew_here(file: *mut File, shape: *const Shape, told: *mut Renewed) -> i32;
    pub fn fkv_renew_file(
        old_path: *const c_char,
        new_path: *const c_char,
        shape: *const Shape,
        keys: u32,
        told: *mut Renewed,
    ) -> i32;
    pub fn fkv_shape_of(file: *const File) -> Shape;
    pub fn fkv_last_commit(file: *mut File, points: *mut u64) -> u64;
    pub fn fkv_join(file: *mut File, number: u64, out: *mut *mut Session) -> i32;
    pub fn fkv_leave(file: *mut File, session: *mut Session) -> i32;
    pub fn fkv_abandon(file: *mut File, session: *mut Session);
    pub fn fkv_settle(
        file: *mut File,
        session: *mut Session,
        told: Option<TellFinished>,
        user: *mut c_void,
    ) -> i32;
    pub fn fkv_settle_for(
        file: *mut File,
        session: *mut Session,
        ms: u32,
        told: Option<TellFinished>,
        user: *mut c_void,
    ) -> i32;
    pub fn fkv_tick(file: *mut File, session: *mut Session) -> i32;
    pub fn fkv_put(
        file: *mut File,
        session: *mut Session,
        key: u64,
        value: u64,
        told: *mut Update,
    ) -> i32;
    pub fn fkv_increment(
        file: *mut File,
        session: *mut Session,
        key: u64,
        number: u64,
        told: *mut Update,
    ) -> i32;
    pub fn fkv_raise(
        file: *mut File,
        session: *mut Session,
        key: u64,
        number: u64,
        told: *mut Update,
    ) -> i32;
    pub fn fkv_remove(file: *mut File, session: *mut Session, key: u64, told: *mut Update) -> i32;
    pub fn fkv_merge_now(
        file: *mut File,
        session: *mut Session,
        key: u64,
        which: u32,
        number: u64,
        told: *mut Update,
    ) -> i32;
    pub fn fkv_read(file: *mut File, session: *mut Session, key: u64, value: *mut u64) -> i32;
    pub fn fkv_read_many(
        file: *mut File,
        session: *mut Session,
        keys: *const u64,
        count: usize,
        told: *mut EachRead,
        room: usize,
    ) -> i32;
    pub fn fkv_start(file: *mut File, keeping: *const Keeping) -> i32;
    pub fn fkv_stop(file: *mut File, with_commit: u32) -> i32;
    pub fn fkv_ask_commit(file: *mut File, ticket: *mut u64) -> i32;
    pub fn fkv_wait_commit(file: *mut File, ticket: u64, session: *mut Session) -> i32;
    pub fn fkv_wait_commit_for(file: *mut File, ticket: u64, session: *mut Session, ms: u32)
    -> i32;
    pub fn fkv_commit_and_wait(file: *mut File, session: *mut Session) -> i32;
    pub fn fkv_nudge(file: *mut File);
    pub fn fkv_keeper_fault(file: *mut File) -> i32;
}
