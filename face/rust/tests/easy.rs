//! The calls that just work: a session's own order beside commits, a tick that says why commits end, sizes for a wish, a keeper that keeps
//! what was done.
use fkv::{
    Error, How, Keeping, Made, Merge, RenewedKeys, Shape, Stats, Store, Update, Wish, Work,
    renew_file,
};
use std::io::{ErrorKind, Write};
use std::path::PathBuf;
use std::sync::atomic::{AtomicBool, Ordering};
use std::sync::mpsc;
use std::time::{Duration, Instant};
use std::{env, fs, process, thread};

/// The library's syncs come here, so that a test of thousands of commits takes a second.
#[unsafe(no_mangle)]
pub extern "C" fn fdatasync(_file: i32) -> i32 {
    0
}

/// A path of a test's own, at which no file is.
struct Path(PathBuf);

impl Path {
    fn new(name: &str) -> Path {
        let path = env::temp_dir().join(format!("fkv-easy-{}-{name}", process::id()));
        let _ = fs::remove_file(&path);
        Path(path)
    }

    fn store(&self, keys: u64) -> Store {
        Store::open_or_make(&self.0, &Wish::default().keys(keys).sessions(3)).unwrap()
    }

    /// Makes its store, which nobody has open, a specified one: the text by which the file begins says so.
    fn specify(&self) {
        let mut file = fs::OpenOptions::new().write(true).open(&self.0).unwrap();
        file.write_all(b"FKVSTOR1").unwrap();
    }
}

impl Drop for Path {
    fn drop(&mut self) {
        let _ = fs::remove_file(&self.0);
    }
}

#[test]
fn a_session_reads_what_it_wrote_beside_commits() {
    const OWN_KEYS: u64 = 8;
    let path = Path::new("order");
    let store = path.store(64);
    let _keeper = store
        .start(Keeping::default().commit_each(Duration::from_millis(5)))
        .unwrap();
    thread::scope(|scope| {
        for number in 0..3 {
            let (mut session, store) = (store.join(number).unwrap(), &store);
            scope.spawn(move || {
                let begun = Instant::now();
                for i in 0.. {
                    if begun.elapsed() > Duration::from_millis(500)
                        && store.last_commit().number > 1
                    {
                        break;
                    }
                    let key = number * OWN_KEYS + i % OWN_KEYS;
                    assert_eq!(session.put(key, i).unwrap().serial, 3 * i + 1);
                    let made = session.increment(key, 2).unwrap();
                    assert_eq!(made.value, i + 2);
                    let made = session.raise(key, i + 1).unwrap();
                    assert_eq!(
                        made,
                        Made {
                            serial: 3 * i + 3,
                            value: i + 2
                        }
                    );
                    assert_eq!(session.read(key).unwrap(), Some(i + 2));
                    session.tick().unwrap();
                }
                let key = number * OWN_KEYS;
                session.remove(key).unwrap();
                assert_eq!(session.read(key).unwrap(), None);
            });
        }
    });
    assert!(store.last_commit().number > 1);
}

#[test]
fn the_last_commit_is_told() {
    let path = Path::new("spent");
    // The log of a specified store has so many pages at most.
    let wished = Shape::for_wish(&Wish::default().keys(10).sessions(3)).unwrap();
    let shape = Shape { disk_pages: 65_536, ..wished };
    Store::make(&path.0, &shape).unwrap();
    path.specify();
    let store = path.store(10);
    let (send, receive) = mpsc::channel();
    let keeping = Keeping::default().log_commits(100).stopped(move |why| {
        let _ = send.send(why.number());
    });
    let keeper = store.start(keeping).unwrap();
    let mut session = store.join_any().unwrap();
    for _ in 0..8190 {
        session.increment(7, 1).unwrap();
        session.tick().unwrap();
        session.commit().unwrap();
    }
    assert!(matches!(session.tick(), Err(Error::VersionsSpent)));
    assert!(matches!(session.commit(), Err(Error::VersionsSpent)));
    let long = Duration::from_secs(60);
    let number = Error::VersionsSpent.number();
    assert_eq!(receive.recv_timeout(long), Ok(number));
    let stats = store.stats().unwrap();
    assert_eq!(
        (stats.commits, stats.commits_left, stats.stopped),
        (8190, 0, number)
    );
    drop(session);
    assert!(matches!(keeper.stop(), Err(Error::VersionsSpent)));
}

#[test]
fn merges_give_what_they_say() {
    let path = Path::new("merges");
    let store = path.store(1000);
    let _keeper = store.start(Keeping::default()).unwrap();
    let mut session = store.join_any().unwrap();
    let none = u64::MAX;
    let most = none - 1;
    for (key, &(before, which, number, after)) in [
        (None, Merge::Keep, 7, none),
        (Some(12), Merge::Keep, none, 12),
        (None, Merge::Min, 7, 7),
        (Some(12), Merge::Min, 7, 7),
        (None, Merge::Sub, 7, 0),
        (Some(7), Merge::Sub, 12, 0),
        (None, Merge::And, 7, 0),
        (Some(12), Merge::And, 10, 8),
        (None, Merge::Or, 7, 7),
        (Some(most), Merge::Or, 1, most),
        (None, Merge::First, 7, 7),
        (Some(12), Merge::First, 7, 12),
    ]
    .iter()
    .enumerate()
    {
        let key = key as u64;
        for key in [key, key + 100, key + 200] {
            if let Some(value) = before {
                session.put(key, value).unwrap();
            }
        }
        let done = |told: Result<Update, Error>| match told.unwrap() {
            Update::Done { value, .. } => value,
            pending => panic!("{pending:?}"),
        };
        assert_eq!(session.merge_now(key, which, number).unwrap().value, after);
        assert_eq!(done(session.merge(key + 100, which, number)), after);
        let told = session.merge_many(which, &[(key + 200, number)]).remove(0);
        assert_eq!(done(told), after);
        assert_eq!(done(session.keep(key)), after);
        assert_eq!(session.read(key).unwrap(), (after != none).then_some(after));
    }
    assert!(matches!(session.min(1, none), Err(Error::ValueReserved)));
    for told in [
        session.first(1000, 12),
        session.min(1000, 9),
        session.sub(1000, 1),
        session.or(1000, 2),
        session.and(1000, 6),
    ] {
        assert!(matches!(told, Ok(Update::Done { .. })));
    }
    assert_eq!(session.read(1000).unwrap(), Some(2));
}

#[test]
fn a_full_log_is_told() {
    let path = Path::new("full");
    let small = Shape {
        bucket_bits: 4,
        page: 4,
        frames: 4,
        mutable_pages: 1,
        sessions: 1,
        overflow: 64,
        disk_pages: 73,
    };
    Store::make(&path.0, &small).unwrap();
    let store = Store::open(&path.0).unwrap();
    let (send, receive) = mpsc::channel();
    let keeping = Keeping::default().stopped(move |why| {
        let _ = send.send(why.number());
    });
    let _keeper = store.start(keeping).unwrap();
    let mut session = store.join(0).unwrap();
    let refused = (0..100).find_map(|key| session.put(key, key).err());
    assert!(matches!(refused, Some(Error::LogFull)));
    assert!(matches!(session.tick(), Err(Error::LogFull)));
    let long = Duration::from_secs(60);
    assert_eq!(receive.recv_timeout(long), Ok(Error::LogFull.number()));
}

#[test]
fn a_keeper_that_was_forgotten_is_told() {
    let path = Path::new("forgotten");
    let store = path.store(10);
    let mut session = store.join_any().unwrap();
    session.put(7, 1).unwrap();
    assert!(matches!(session.tick(), Err(Error::NoKeeper)));
    assert!(matches!(session.commit(), Err(Error::NoKeeper)));
    assert_eq!(Error::NoKeeper.name(), "NoKeeper");
    assert_eq!(
        Error::NoKeeper.text(),
        "No keeper's thread runs: start it first."
    );
}

#[test]
fn what_is_done_is_kept_as_the_keeper_is_dropped() {
    let path = Path::new("kept");
    let store = path.store(1000);
    let keeper = store.start(Keeping::default()).unwrap();
    let mut session = store.join_any().unwrap();
    for key in 0..1000 {
        session.put(key, key + 1).unwrap();
        session.tick().unwrap();
    }
    drop((session, keeper, store));
    let store = Store::open_with(&path.0, How::default().warm(0)).unwrap();
    assert_eq!(store.last_commit().number, 1);
    let keeper = store.start(Keeping::default().no_warmer()).unwrap();
    let mut session = store.join_any().unwrap();
    let keys: Vec<u64> = (0..1100).collect();
    let found = session.read_many(&keys).unwrap();
    for key in 0..1100 {
        assert_eq!(found[key as usize], (key < 1000).then_some(key + 1));
    }
    assert!(session.read_many(&[]).unwrap().is_empty());
    let stats = store.stats().unwrap();
    // A turn's reads are counted when it ends, behind its answers: so the last turn's may still lack.
    assert!(stats.cold_reads >= 900 && stats.helped > 0 && stats.turns >= stats.helped);
    assert!(stats.waited[0] >= 1000);
    let Stats {
        joined, stopped, ..
    } = stats;
    assert_eq!((joined, stopped), (1, 0));
    assert!(stats.in_hand.is_none() && stats.commit_time.is_none());
    assert_eq!((stats.begin, stats.tail, stats.flushed), (1, 1001, 1001));
    assert_eq!((stats.entries, stats.pending), (1000, [0; 6]));
    assert!(stats.begin <= stats.head && stats.head <= stats.flushed);
    assert!(stats.flushed <= stats.read_only && stats.read_only <= stats.tail);
    session.put(7, 1).unwrap();
    assert_eq!(store.stats().unwrap().tail, 1002);
    // A session is out, so no last commit waits for it.
    drop(keeper);
    drop((session, store));
    assert_eq!(path.store(0).last_commit().number, 1);
}

#[test]
fn the_front_of_the_log_is_given_back() {
    const KEYS: u64 = 100;
    let path = Path::new("front");
    let store = path.store(1000);
    let keeping = Keeping::default()
        .commit_each(Duration::from_millis(5))
        .log_bytes(1 << 14);
    let keeper = store.start(keeping).unwrap();
    let mut session = store.join_any().unwrap();
    let (begun, mut made) = (Instant::now(), 0);
    while store.stats().unwrap().begin == 1 {
        for key in 0..KEYS {
            session.increment(key, 1).unwrap();
            session.tick().unwrap();
        }
        made += 1;
        assert!(begun.elapsed() < Duration::from_secs(60));
    }
    let stats = store.stats().unwrap();
    assert!(stats.swept > 0 && stats.begin <= stats.tail && stats.disk_bytes > 0);
    drop((session, keeper, store));
    let store = path.store(1000);
    assert!(store.stats().unwrap().begin >= stats.begin);
    let _keeper = store.start(Keeping::default().keep_log()).unwrap();
    let mut session = store.join_any().unwrap();
    for key in 0..KEYS {
        assert_eq!(session.read(key).unwrap(), Some(made));
    }
}

#[test]
fn a_backup_is_a_store() {
    const KEYS: u64 = 200;
    let (path, copy) = (Path::new("saved"), Path::new("copy"));
    let store = path.store(KEYS);
    let _keeper = store
        .start(Keeping::default().commit_each(Duration::from_millis(5)))
        .unwrap();
    let ends = AtomicBool::new(false);
    thread::scope(|scope| {
        let (mut session, ends) = (store.join(0).unwrap(), &ends);
        scope.spawn(move || {
            for i in (0..).take_while(|_| !ends.load(Ordering::SeqCst)) {
                session.increment(i % KEYS, 1).unwrap();
                session.tick().unwrap();
            }
        });
        for _ in 0..5 {
            let _ = fs::remove_file(&copy.0);
            let (before, mut told) = (store.last_commit().number, None);
            store
                .save(&copy.0, |progress| told = Some(progress))
                .unwrap();
            let told = told.unwrap();
            assert_eq!((told.work, Some(told.done)), (Work::Saving, told.total));
            let backup = Store::open(&copy.0).unwrap();
            let _keeper = backup.start(Keeping::default()).unwrap();
            let mut session = backup.join(1).unwrap();
            let keys: Vec<u64> = (0..KEYS).collect();
            let found = session.read_many(&keys).unwrap();
            let commit = backup.last_commit();
            assert!(commit.number >= before);
            assert_eq!(found.iter().flatten().sum::<u64>(), commit.points[0]);
        }
        ends.store(true, Ordering::SeqCst);
    });
    assert!(matches!(
        store.save(&copy.0, |_| {}),
        Err(Error::Device(why)) if why.kind() == ErrorKind::AlreadyExists
    ));
}

#[test]
fn pairs_and_a_renewed_file_have_the_last_commit() {
    let (path, copy) = (Path::new("pairs"), Path::new("renewed"));
    let store = path.store(1000);
    let keeper = store.start(Keeping::default()).unwrap();
    let mut session = store.join(1).unwrap();
    for key in 0..1000 {
        session.put(key << 20, key).unwrap();
    }
    session.remove(0).unwrap();
    session.commit().unwrap();
    session.put(7, 7).unwrap();
    let mut pairs = Vec::new();
    store.each(|key, value| pairs.push((key, value))).unwrap();
    pairs.sort_unstable();
    let wanted: Vec<(u64, u64)> = (1..1000).map(|key| (key << 20, key)).collect();
    assert_eq!(pairs, wanted);
    let busy = renew_file(&path.0, &copy.0, None, RenewedKeys::AsTheyLie);
    assert!(matches!(busy, Err(Error::Device(why)) if why.kind() == ErrorKind::WouldBlock));
    drop((session, keeper, store));
    renew_file(&path.0, &copy.0, None, RenewedKeys::AsTheyLie).unwrap();
    let renewed = Store::open(&copy.0).unwrap();
    let commit = renewed.last_commit();
    assert_eq!((commit.number, commit.points), (1, vec![0, 1002, 0]));
    let mut count = 0;
    renewed.each(|_, _| count += 1).unwrap();
    assert_eq!(count, 1000);
}

#[test]
fn a_store_is_renewed_in_place() {
    let path = Path::new("in_place");
    let store = path.store(100);
    let (send, receive) = mpsc::channel();
    let keeper = store
        .start(Keeping::default().committed(move |number, _| {
            let _ = send.send(number);
        }))
        .unwrap();
    let mut session = store.join(1).unwrap();
    for key in 0..100 {
        session.put(key, key + 1).unwrap();
    }
    assert!(matches!(store.renew(None), Err(Error::HandleOut)));
    drop(session);
    let shape = Shape::for_wish(&Wish::default().keys(5000).sessions(3)).unwrap();
    store.renew(Some(&shape)).unwrap();
    assert_eq!(store.shape(), shape);
    assert_eq!(store.last_commit().points, [0, 100, 0]);
    let mut session = store.join(1).unwrap();
    for key in 0..100 {
        assert_eq!(session.read(key).unwrap(), Some(key + 1));
    }
    assert_eq!(session.put(7, 70).unwrap().serial, 101);
    session.commit().unwrap();
    // The hook of the same keeper has heard of the last commit of the old store, and of the second one of the new store.
    assert_eq!(receive.try_iter().collect::<Vec<u64>>(), [1, 2]);
    drop((session, keeper, store));
    let store = path.store(0);
    assert_eq!(store.last_commit().points, [0, 101, 0]);
}

#[test]
fn sizes_follow_from_a_wish() {
    let shape = Shape::for_wish(&Wish::default().keys(1000).sessions(31)).unwrap();
    let size = shape.size().unwrap();
    assert!(size.keys >= 1000 && size.memory_bytes > 24_000 && size.file_bytes > 24 * size.records);
    assert_eq!(shape.sessions, 31);
    let most = 16 << 20;
    let wish = Wish::default().keys(100_000).memory_bytes(most);
    let small = Shape::for_wish(&wish).unwrap().size().unwrap();
    assert!(small.memory_bytes <= most && small.opening_bytes > small.memory_bytes);
    let few = wish.updates_between_commits(100);
    let few = Shape::for_wish(&few).unwrap().size().unwrap();
    assert!(few.file_bytes < small.file_bytes);
    let refused = Shape::for_wish(&Wish::default().sessions(32));
    assert!(matches!(refused, Err(Error::BadShape)));
    assert!(matches!(
        Shape { page: 5, ..shape }.size(),
        Err(Error::BadShape)
    ));
}
