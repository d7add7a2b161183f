//! A counter that survives kill -9. Four threads add 1 to keys, and a commit runs each 50 milliseconds.
//!
//!     counter FILE            opens the store in FILE, or makes it, and adds until it is killed
//!     counter FILE check      opens it and tells what it holds
//!
//! Each add is of 1, so in every opened store the values' sum is that of the points: the sum line says whether it is. Each thread
//! writes out which of its adds are durable: no crash after that line may lose one of them. It ends when the store takes no more.
use fkv::{Error, Keeping, Session, Store, Wish};
use std::io::{Write, stdout};
use std::time::Duration;
use std::{env, fmt, thread};

const WORKERS: u64 = 4;
const KEYS: u64 = 256;
const TOLD_EACH: u64 = 64;

/// Writes a line at once: what is written out stays so when the process is killed.
fn say(line: fmt::Arguments<'_>) {
    let line = format!("{line}\n");
    stdout()
        .lock()
        .write_all(line.as_bytes())
        .expect("standard output takes it");
}

fn spelled(points: &[u64]) -> String {
    points
        .iter()
        .map(u64::to_string)
        .collect::<Vec<_>>()
        .join(" ")
}

/// The sum of all values, beside that of the points, which were recovered.
fn check(store: &Store) -> Result<(), Error> {
    let commit = store.last_commit();
    let mut session = store.join(0)?;
    let mut sum = 0;
    for key in 0..KEYS {
        sum += session.read(key)?.unwrap_or(0);
    }
    let word = if sum == commit.points.iter().sum() {
        "agrees"
    } else {
        "differs"
    };
    say(format_args!(
        "opened {} points {}",
        commit.number,
        spelled(&commit.points)
    ));
    say(format_args!("sum {sum} {word}"));
    Ok(())
}

/// One thread, with one session.
fn work(mut session: Session, number: u64) -> Result<(), Error> {
    let mut random = number;
    let mut told = session.durable()?;
    for i in 1_u64.. {
        random = random
            .wrapping_mul(6364136223846793005)
            .wrapping_add(1442695040888963407);
        let serial = session.increment(random >> 56, 1)?.serial;
        session.tick()?;
        if i % TOLD_EACH != 0 {
            continue;
        }
        let durable = session.durable()?;
        if durable > told {
            told = durable;
            say(format_args!("told {number} durable {told} of {serial}"));
        }
    }
    Ok(())
}

fn main() -> Result<(), Error> {
    let words: Vec<String> = env::args().collect();
    let Some(path) = words.get(1) else {
        panic!("counter FILE [check]")
    };
    let wish = Wish::default().keys(KEYS).sessions(WORKERS);
    let store = Store::open_or_make(path, &wish)?;
    let keeper = store.start(Keeping::default())?;
    check(&store)?;
    drop(keeper);
    if words.len() > 2 {
        return Ok(());
    }
    let keeping = Keeping::default()
        .commit_each(Duration::from_millis(50))
        .committed(|number, points| {
            say(format_args!("finished {number} points {}", spelled(points)))
        })
        .progress(|progress| {
            if progress.done == 0 {
                say(format_args!("begins"));
            }
        });
    let _keeper = store.start(keeping)?;
    thread::scope(|scope| {
        for number in 0..WORKERS {
            let session = store.join(number).expect("nobody has it");
            scope.spawn(move || work(session, number).expect("it adds"));
        }
    });
    Ok(())
}
