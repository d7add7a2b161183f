//! The crate over real files: each call once, and what it refuses.
use fkv::{
    Error, Finished, How, Keeper, Keeping, Phase, Read, RenewedKeys, Session, Shape, Store, Update, Work,
    formats, renew, spread, spread_back, version,
};
use std::io::ErrorKind;
use std::path::PathBuf;
use std::sync::atomic::{AtomicU64, Ordering};
use std::sync::mpsc::{self, Receiver};
use std::sync::{Arc, Mutex};
use std::time::Duration;
use std::{env, fs, process, thread};

const SHAPE: Shape = Shape {
    bucket_bits: 10,
    page: 16,
    frames: 8,
    mutable_pages: 4,
    sessions: 3,
    overflow: 64,
    disk_pages: 4096,
};

/// A path of a test's own, at which no file is.
struct Path(PathBuf);

impl Path {
    fn new(name: &str) -> Path {
        let path = env::temp_dir().join(format!("fkv-{}-{name}", process::id()));
        let _ = fs::remove_file(&path);
        Path(path)
    }

    fn store(&self) -> Store {
        Store::make(&self.0, &SHAPE).unwrap();
        Store::open(&self.0).unwrap()
    }
}

impl Drop for Path {
    fn drop(&mut self) {
        let _ = fs::remove_file(&self.0);
    }
}

fn is_device(result: Result<impl Sized, Error>, kind: ErrorKind) -> bool {
    matches!(result, Err(Error::Device(why)) if why.kind() == kind)
}

#[test]
fn a_file_is_made_once_and_opened_by_one() {
    let path = Path::new("made");
    assert!(matches!(
        Store::make(&path.0, &Shape { page: 5, ..SHAPE }),
        Err(Error::BadShape)
    ));
    assert!(is_device(Store::open(&path.0), ErrorKind::NotFound));
    let store = path.store();
    assert!(is_device(
        Store::make(&path.0, &SHAPE),
        ErrorKind::AlreadyExists
    ));
    assert!(is_device(Store::open(&path.0), ErrorKind::WouldBlock));
    assert_eq!(store.shape(), SHAPE);
    assert_eq!(store.last_commit().number, 0);
    let session = store.join(1).unwrap();
    assert!(matches!(store.join(1), Err(Error::HandleTaken)));
    assert!(matches!(store.join(3), Err(Error::NoSession)));
    drop(session);
    drop(store.join(1).unwrap());
    drop(store);
    fs::write(&path.0, "no store").unwrap();
    assert!(matches!(Store::open(&path.0), Err(Error::NotAStore)));
}

/// As many sessions as were asked for are given, and no more. Of a file with a single one, a hook says once that nothing keeps memory warm.
#[test]
fn so_many_sessions_as_were_asked_for() {
    for sessions in [1, 2, 3, 31] {
        let path = Path::new(&format!("sessions-{sessions}"));
        let shape = Shape { sessions, ..SHAPE };
        Store::make(&path.0, &shape).unwrap();
        assert_eq!(u64::from(fs::read(&path.0).unwrap()[40]), sessions + 1);
        let store = Store::open(&path.0).unwrap();
        assert_eq!(store.shape(), shape);
        let all: Vec<_> = (0..sessions).map(|_| store.join_any().unwrap()).collect();
        assert!(matches!(store.join_any(), Err(Error::NoSession)));
        assert!(matches!(store.join(sessions), Err(Error::NoSession)));
        assert_eq!(store.stats().unwrap().joined, (1 << sessions) - 1);
        assert_eq!(store.last_commit().points, vec![0; sessions as usize]);
        drop(all);
        let more = Shape {
            sessions: 7,
            ..SHAPE
        };
        store.renew(Some(&more)).unwrap();
        assert_eq!(store.shape(), more);
    }
    let many = Shape {
        sessions: 32,
        ..SHAPE
    };
    assert!(matches!(many.size(), Err(Error::BadShape)));
    assert!(matches!(Store::make("none", &many), Err(Error::BadShape)));
    let path = Path::new("sessions-own");
    Store::make(&path.0, &SHAPE).unwrap();
    let mut image = fs::read(&path.0).unwrap();
    // The shape's sessions, and those that have a point in the slot of commit 0.
    image[40] = 1;
    image[512 + 48] = 1;
    fs::write(&path.0, image).unwrap();
    let store = Store::open(&path.0).unwrap();
    assert_eq!(store.shape().sessions, 1);
    let (send, receive) = mpsc::channel();
    for keeping in [
        Keeping::default().no_warmer(),
        Keeping::default(),
        Keeping::default(),
    ] {
        let send = send.clone();
        let keeper = store
            .start(keeping.unwarmed(move || send.send(()).unwrap()))
            .unwrap();
        keeper.stop().unwrap();
    }
    assert_eq!(receive.try_iter().count(), 1);
}

#[test]
fn calls_answer_as_a_map() {
    let path = Path::new("calls");
    let store = path.store();
    let mut session = store.join_any().unwrap();
    assert_eq!(session.get(7).unwrap(), Read::Absent);
    assert_eq!(session.upsert(7, 10).unwrap().serial(), 1);
    assert_eq!(
        session.add(7, 5).unwrap(),
        Update::Done {
            serial: 2,
            value: 15
        }
    );
    assert_eq!(
        session.max(7, 40).unwrap(),
        Update::Done {
            serial: 3,
            value: 40
        }
    );
    assert_eq!(session.get(7).unwrap(), Read::Found(40));
    assert_eq!(session.delete(7).unwrap().serial(), 4);
    assert_eq!(session.get(7).unwrap(), Read::Absent);
    assert!(matches!(
        session.upsert(7, u64::MAX),
        Err(Error::ValueReserved)
    ));
    assert_eq!(session.refresh().unwrap().phase, Phase::Rest);
    assert_eq!(session.poll(|_| {}).unwrap(), 0);
    assert_eq!(session.durable().unwrap(), 0);
    assert_eq!(session.serial().unwrap(), 4);
    assert!(matches!(session.wake(), Err(Error::Awake)));
    session.sleep().unwrap();
    assert!(matches!(session.get(7), Err(Error::Asleep)));
    session.wake().unwrap();
    assert!(matches!(session.commit(), Err(Error::NoKeeper)));
}

/// The answers of calls, with the numbers of their errors.
fn numbered<T: Copy>(answers: impl IntoIterator<Item = Result<T, Error>>) -> Vec<Result<T, i32>> {
    let numbered = |answer: Result<T, Error>| answer.map_err(|why| why.number());
    answers.into_iter().map(numbered).collect()
}

#[test]
fn calls_of_many_keys_answer_as_single_ones() {
    let (path, twin_path) = (Path::new("many"), Path::new("many-twin"));
    let (store, twin) = (path.store(), twin_path.store());
    let (mut session, mut other) = (store.join_any().unwrap(), twin.join_any().unwrap());
    // One value is refused, and some keys come twice.
    let pair = |at: u64| (at % 60 << 20, if at == 40 { u64::MAX } else { at });
    let pairs: Vec<(u64, u64)> = (0..80).map(pair).collect();
    let keys: Vec<u64> = pairs.iter().map(|its| its.0).collect();
    let told = numbered(session.upsert_many(&pairs));
    assert_eq!(
        told[39],
        Ok(Update::Done {
            serial: 40,
            value: 0
        })
    );
    assert_eq!(told[40], Err(Error::ValueReserved.number()));
    assert_eq!(
        told[41],
        Ok(Update::Done {
            serial: 41,
            value: 0
        })
    );
    let single = pairs.iter().map(|&(key, value)| other.upsert(key, value));
    assert_eq!(told, numbered(single));
    let told = numbered(session.add_many(&pairs));
    assert_eq!(
        told[39],
        Ok(Update::Done {
            serial: 119,
            value: 78
        })
    );
    let single = pairs.iter().map(|&(key, number)| other.add(key, number));
    assert_eq!(told, numbered(single));
    let told = numbered(session.get_many(&keys));
    assert_eq!(told[39], Ok(Read::Found(78)));
    assert_eq!(told, numbered(keys.iter().map(|&key| other.get(key))));
    // No keeper runs: the last ones wait, and then too many do.
    let pairs: Vec<(u64, u64)> = (0..250).map(|key| (key, key)).collect();
    let told = numbered(session.upsert_many(&pairs));
    assert_eq!(told[249], Err(Error::PendingFull.number()));
    let single = pairs.iter().map(|&(key, value)| other.upsert(key, value));
    assert_eq!(told, numbered(single));
    assert!(session.get_many(&[]).is_empty() && session.add_many(&[]).is_empty());
    let _keepers = [&store, &twin].map(|store| store.start(Keeping::default()).unwrap());
    session.settle(|_| {}).unwrap();
    other.settle(|_| {}).unwrap();
}

#[test]
fn commits_are_there_in_the_next_life() {
    let path = Path::new("commits");
    let store = path.store();
    let told = Arc::new(AtomicU64::new(0));
    let (theirs, (send, receive)) = (Arc::clone(&told), mpsc::channel());
    let keeping = Keeping::default()
        .commit_each(Duration::from_millis(5))
        .log_commits(2)
        .turn_each(Duration::from_micros(200))
        .committed(move |number, points| {
            assert_eq!(points.len(), 3);
            theirs.store(number, Ordering::SeqCst);
        })
        .progress(move |progress| {
            assert_eq!((progress.work, progress.total), (Work::Committing, None));
            let _ = send.send(progress.done);
        });
    let keeper = store.start(keeping).unwrap();
    assert!(matches!(
        store.start(Keeping::default()),
        Err(Error::HandleTaken)
    ));
    thread::scope(|scope| {
        for number in 0..3 {
            let mut session = store.join(number).unwrap();
            scope.spawn(move || {
                for key in 0..1000 {
                    while let Err(Error::PendingFull) = session.add(key, number + 1) {
                        session.settle(|_| {}).unwrap();
                    }
                    if key % 16 == 0 {
                        session.refresh().unwrap();
                    }
                }
                session.settle(|_| {}).unwrap();
            });
        }
    });
    let mut session = store.join_any().unwrap();
    for key in 0..1000 {
        assert_eq!(session.read(key).unwrap(), Some(6));
    }
    session.commit().unwrap();
    let ticket = keeper.ask_commit().unwrap();
    keeper.nudge();
    keeper.wait(ticket, Some(&mut session)).unwrap();
    assert!(keeper.fault().is_none());
    drop(session);
    keeper.stop().unwrap();
    let last = store.last_commit();
    assert_eq!(
        (last.number, last.points.iter().sum()),
        (told.load(Ordering::SeqCst), 3000)
    );
    assert!(receive.try_iter().count() > 1);
    drop(store);
    let mut read = 0;
    let mut note = |progress: fkv::Progress| read = progress.done;
    let store = Store::open_with(&path.0, How::default().progress(&mut note)).unwrap();
    assert_eq!(read, fs::metadata(&path.0).unwrap().len());
    assert_eq!(store.last_commit(), last);
    let _keeper = store.start(Keeping::default()).unwrap();
    assert_eq!(store.join_any().unwrap().read(7).unwrap(), Some(6));
}

#[test]
fn a_last_commit_is_not_waited_for_past_an_own_session_that_is_awake() {
    let path = Path::new("own_session");
    let store = path.store();
    for sleeps in [false, true] {
        let keeper = store.start(Keeping::default()).unwrap();
        let mut session = store.join_any().unwrap();
        session.put(7, 1).unwrap();
        if sleeps {
            session.sleep().unwrap();
        }
        let result = keeper.stop();
        assert_eq!(matches!(result, Err(Error::HandleOut)), !sleeps);
        assert_eq!(result.is_ok(), sleeps);
        let is_kept = session.durable().unwrap() == session.serial().unwrap();
        assert_eq!(is_kept, sleeps);
        drop(session);
    }
}

#[test]
fn a_keeper_that_is_stopped_at_once_commits_nothing() {
    let path = Path::new("at_once");
    let store = path.store();
    let keeper = store.start(Keeping::default()).unwrap();
    let mut session = store.join_any().unwrap();
    session.put(7, 1).unwrap();
    session.commit().unwrap();
    session.put(7, 2).unwrap();
    keeper.stop_now().unwrap();
    assert!(matches!(session.commit(), Err(Error::NoKeeper)));
    drop((session, store));
    let store = Store::open(&path.0).unwrap();
    let _keeper = store.start(Keeping::default()).unwrap();
    assert_eq!(store.join_any().unwrap().read(7).unwrap(), Some(1));
}

#[test]
fn what_was_pending_is_told() {
    let path = Path::new("pending");
    let store = path.store();
    let keeper = store.start(Keeping::default()).unwrap();
    let mut session = store.join_any().unwrap();
    for key in 0..1000 {
        while let Err(Error::PendingFull) = session.upsert(key, key) {
            session.settle(|_| {}).unwrap();
        }
        session.refresh().unwrap();
    }
    session.settle(|_| {}).unwrap();
    let mut tickets = Vec::new();
    for key in 0..64 {
        match session.get(key).unwrap() {
            Read::Found(value) => assert_eq!(value, key),
            Read::Pending(ticket) => tickets.push((ticket, key)),
            Read::Absent => panic!("key {key} is lost"),
        }
    }
    let mut answers = Vec::new();
    session
        .settle(|finished| match finished {
            Finished::Read { ticket, value } => answers.push((ticket, value.unwrap())),
            Finished::Updated { .. } => panic!("no update is pending"),
        })
        .unwrap();
    answers.sort_by_key(|answer| answer.0.0);
    assert_eq!(answers, tickets);
    drop(keeper);
}

/// Keepers that hooks drop.
type Held = Arc<Mutex<Option<Keeper>>>;

/// Starts a keeper whose hook takes it from here and ends it, and then says so.
fn start_for_hook(
    store: &Store,
    held: &Held,
    end: impl Fn(Keeper) + Send + 'static,
) -> Receiver<()> {
    let (send, receive) = mpsc::channel();
    let theirs = Arc::clone(held);
    let keeping = Keeping::default().committed(move |_, _| {
        if let Some(keeper) = theirs.lock().unwrap().take() {
            end(keeper);
            let _ = send.send(());
        }
    });
    *held.lock().unwrap() = Some(store.start(keeping).unwrap());
    receive
}

#[test]
fn a_keeper_that_its_own_hook_drops_goes_on() {
    let path = Path::new("own_hook");
    for stops in [false, true] {
        let _ = fs::remove_file(&path.0);
        let store = path.store();
        let held = Held::default();
        let ended = start_for_hook(&store, &held, move |keeper| {
            if stops {
                assert!(matches!(keeper.stop(), Err(Error::HandleOut)));
            }
        });
        let asked = held.lock().unwrap().as_ref().unwrap().ask_commit();
        assert!(asked.is_ok());
        ended.recv_timeout(Duration::from_secs(60)).unwrap();
        let mut session = store.join_any().unwrap();
        session.add(7, 1).unwrap();
        session.commit().unwrap();
        assert!(matches!(
            store.start(Keeping::default()),
            Err(Error::HandleTaken)
        ));
        drop((session, store));
        assert!(is_device(Store::open(&path.0), ErrorKind::WouldBlock));
    }
}

#[test]
fn a_session_that_is_dropped_without_a_keeper_holds_up_no_commit() {
    let path = Path::new("dropped");
    let store = path.store();
    let mut session = store.join(0).unwrap();
    let accepted = (0..1000).take_while(|&key| session.upsert(key, key).is_ok());
    let keys = accepted.count() as u64;
    assert!(matches!(session.sleep(), Err(Error::PendingLeft)));
    drop(session);
    assert!(matches!(store.join(0), Err(Error::HandleTaken)));
    let keeper = store.start(Keeping::default()).unwrap();
    store.join(1).unwrap().commit().unwrap();
    assert_eq!(store.last_commit().points[0], keys);
    let mut session = loop {
        match store.join(0) {
            Err(Error::HandleTaken) => thread::yield_now(),
            joined => break joined.unwrap(),
        }
    };
    for key in 0..keys {
        assert_eq!(session.read(key).unwrap(), Some(key));
    }
    drop((session, keeper));
}

/// Adds to the session's own key, tells how far it has come, and finds what the other was told.
fn tell(session: &mut Session, other: &mut Session, told: &mut [u64; 2], own: usize) {
    told[own] = session.increment(own as u64, 1).unwrap().value;
    session.meet(other).unwrap();
    let of_other = told[1 - own];
    let found = session.read(1 - own as u64).unwrap();
    assert_eq!(found.unwrap_or(0), of_other);
    session.tick().unwrap();
}

#[test]
fn who_was_told_of_an_update_finds_it() {
    let path = Path::new("told");
    let store = path.store();
    let keeper = store.start(Keeping::default()).unwrap();
    let sessions = [store.join(0).unwrap(), store.join(1).unwrap()];
    let both = Mutex::new((sessions, [0, 0]));
    thread::scope(|threads| {
        for own in [0, 1] {
            let both = &both;
            threads.spawn(move || {
                for _ in 0..200 {
                    let (sessions, told) = &mut *both.lock().unwrap();
                    let [first, second] = sessions;
                    match own {
                        0 => tell(first, second, told, 0),
                        _ => tell(second, first, told, 1),
                    }
                }
            });
        }
    });
    let (sessions, told) = both.into_inner().unwrap();
    assert_eq!(told, [200, 200]);
    drop((sessions, keeper));
}

#[test]
#[should_panic(expected = "another opening")]
fn a_session_of_another_store_is_refused() {
    let (path, other_path) = (Path::new("session"), Path::new("other_session"));
    let (store, other) = (path.store(), other_path.store());
    let (mut session, mut others) = (store.join(0).unwrap(), other.join(0).unwrap());
    let _ = session.meet(&mut others);
}

#[test]
fn who_waits_for_a_while_goes_on() {
    let path = Path::new("for_a_while");
    let store = path.store();
    let keeper = store.start(Keeping::default()).unwrap();
    let (mut session, other) = (store.join(0).unwrap(), store.join(1).unwrap());
    assert_eq!(session.add(7, 1).unwrap().serial(), 1);
    assert!(session.settle_for(Duration::ZERO, |_| {}).unwrap());
    let ticket = keeper.ask_commit().unwrap();
    let a_while = Duration::from_millis(20);
    assert!(
        !keeper
            .wait_for(ticket, Some(&mut session), a_while)
            .unwrap()
    );
    drop(other);
    let long = Duration::from_secs(60);
    assert!(keeper.wait_for(ticket, Some(&mut session), long).unwrap());
    assert_eq!(session.durable().unwrap(), session.serial().unwrap());
}

#[test]
#[should_panic(expected = "another opening")]
fn a_ticket_of_another_store_is_refused() {
    let (path, other_path) = (Path::new("ticket"), Path::new("other_ticket"));
    let (store, other) = (path.store(), other_path.store());
    let [keeper, others] = [&store, &other].map(|store| store.start(Keeping::default()).unwrap());
    let ticket = others.ask_commit().unwrap();
    others.wait(ticket, None).unwrap();
    let _ = keeper.wait(ticket, None);
}

#[test]
fn a_short_time_between_commits_is_not_none() {
    let path = Path::new("short");
    let store = path.store();
    let (send, receive) = mpsc::channel();
    let keeping = Keeping::default()
        .commit_each(Duration::from_micros(10))
        .committed(move |number, _| {
            let _ = send.send(number);
        });
    let _keeper = store.start(keeping).unwrap();
    let mut session = store.join_any().unwrap();
    session.add(7, 1).unwrap();
    session.sleep().unwrap();
    assert_eq!(receive.recv_timeout(Duration::from_secs(60)), Ok(1));
}

#[test]
fn keys_are_spread_one_to_one() {
    let path = Path::new("keys");
    drop(path.store());
    for key in [0, 1, 1 << 20, u64::MAX] {
        assert_eq!(spread_back(spread(key)), key);
    }
    let store = Store::open_with(&path.0, How::default().keys_are_spread()).unwrap();
    let keeper = store.start(Keeping::default()).unwrap();
    let mut session = store.join_any().unwrap();
    session.upsert(7, 10).unwrap();
    session.commit().unwrap();
    drop((session, keeper, store));
    let store = Store::open(&path.0).unwrap();
    let _keeper = store.start(Keeping::default()).unwrap();
    let mut session = store.join_any().unwrap();
    assert_eq!(session.read(7).unwrap(), None);
    assert_eq!(session.read(spread_back(7)).unwrap(), Some(10));
}

#[test]
fn sessions_go_to_other_threads_and_the_rest_is_shared() {
    fn is_sent<T: Send>() {}
    fn is_shared<T: Send + Sync>() {}
    is_sent::<fkv::Session>();
    is_shared::<Store>();
    is_shared::<fkv::Keeper>();
    // If a session were `Sync`, this wouldn't compile: two functions could be meant.
    trait IsAlone<T> {
        fn is_alone() {}
    }
    impl<T> IsAlone<()> for T {}
    impl<T: Sync> IsAlone<u8> for T {}
    <fkv::Session as IsAlone<_>>::is_alone();
}

#[test]
fn the_library_says_its_version_and_formats() {
    let (numbers, built) = version().split_once(' ').unwrap();
    assert_eq!(numbers, env!("CARGO_PKG_VERSION"));
    assert!(built == "proved" || built.starts_with("without proof, built from "));
    let path = Path::new("formats");
    Store::make(&path.0, &SHAPE).unwrap();
    let bytes = fs::read(&path.0).unwrap();
    assert!(formats().any(|it| bytes.starts_with(it.as_bytes())));
}

#[test]
fn errors_have_the_names_of_the_header() {
    assert_eq!(
        (Error::Asleep.number(), Error::Asleep.name()),
        (12, "Asleep")
    );
    assert_eq!(Error::Unknown(-99).to_string(), "Unknown -99");
    assert_eq!(Error::PendingFull.to_string(), "PendingFull");
}

#[test]
fn a_renewed_store_has_the_values_and_the_points() {
    let path = Path::new("renewed");
    Store::make(&path.0, &SHAPE).unwrap();
    let store = Store::open_with(&path.0, How::default().keys_are_spread()).unwrap();
    let keeper = store.start(Keeping::default()).unwrap();
    let mut session = store.join(1).unwrap();
    for key in 0..100 {
        session.upsert(key << 20, key).unwrap();
    }
    session.commit().unwrap();
    drop((session, keeper, store));
    let old = fs::read(&path.0).unwrap();
    let few = Shape {
        sessions: 1,
        ..SHAPE
    };
    let refused = renew(&old, Some(&few), RenewedKeys::AsTheyLie);
    assert!(matches!(refused, Err(Error::NoSession)));
    let new = renew(&old, None, RenewedKeys::SpreadNow).unwrap();
    fs::write(&path.0, new).unwrap();
    let store = Store::open(&path.0).unwrap();
    assert_eq!(store.shape(), SHAPE);
    assert_eq!(store.last_commit().number, 1);
    assert_eq!(store.last_commit().points, [0, 100, 0]);
    let _keeper = store.start(Keeping::default()).unwrap();
    let mut session = store.join(1).unwrap();
    for key in 0..100 {
        assert_eq!(session.read(key << 20).unwrap(), Some(key));
    }
    assert_eq!(session.upsert(7, 1).unwrap().serial(), 101);
}
