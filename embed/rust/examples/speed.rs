//! The Rust part of `embed/speed`: writes `WORKLOAD RATE` a line, in calls or operations a second, the best of so many
//! runs.
//!
//! `speed TRANSACTIONS REFUSED RUNS`

use ripsawbean::{CallError, Command, CommandError, Database, LineFault};
use std::collections::HashMap;
use std::error::Error;
use std::fmt::Write;
use std::sync::Mutex;
use std::thread;
use std::time::Instant;

const KEYS: u64 = 100;
const THREADS: u8 = 4;

/// begin, put, get and commit of one drawn key each, the lines written by `make`.
fn transactions(count: u64) -> Result<f64, Box<dyn Error>> {
    let mut db = Database::open(1024)?;
    let from = Instant::now();
    for ts in 1..=count {
        let (key, value) = (format!("k{}", ts * 7 % KEYS), format!("v{ts}"));
        let key = key.as_bytes();
        db.make(0, Command::Begin { ts })?;
        db.make(0, Command::Put { ts, key, value: value.as_bytes() })?;
        db.make(0, Command::Get { ts, key })?;
        db.make(0, Command::Commit { ts })?;
    }
    Ok(4.0 * count as f64 / from.elapsed().as_secs_f64())
}

/// The same calls without lines.
fn typed(count: u64) -> Result<f64, Box<dyn Error>> {
    let mut db = Database::open(1024)?;
    let from = Instant::now();
    for ts in 1..=count {
        let (key, value) = (format!("k{}", ts * 7 % KEYS), format!("v{ts}"));
        let key = key.as_bytes();
        db.begin(0, ts)?;
        db.put(0, ts, key, value.as_bytes())?;
        db.get(0, ts, key)?;
        db.commit(0, ts)?;
    }
    Ok(4.0 * count as f64 / from.elapsed().as_secs_f64())
}

/// The same by four threads at once, each with a seat and keys of its own, behind a `Mutex`.
fn threads(count: u64) -> Result<f64, Box<dyn Error>> {
    let db = &Mutex::new(Database::open(1024)?);
    let from = Instant::now();
    thread::scope(|scope| {
        let all: Vec<_> = (0..THREADS).map(|seat| scope.spawn(move || part(db, seat, count))).collect();
        all.into_iter().try_for_each(|one| one.join().expect("no thread panics"))
    })?;
    Ok(4.0 * count as f64 / from.elapsed().as_secs_f64())
}

/// One thread's part.
fn part(db: &Mutex<Database>, seat: u8, count: u64) -> Result<(), CommandError> {
    let database = || db.lock().expect("no thread panics");
    for ts in (1 + u64::from(seat)..=count).step_by(usize::from(THREADS)) {
        let (key, value) = (format!("k{seat}.{}", ts * 7 % KEYS), format!("v{ts}"));
        let key = key.as_bytes();
        database().begin(seat, ts)?;
        database().put(seat, ts, key, value.as_bytes())?;
        database().get(seat, ts, key)?;
        database().commit(seat, ts)?;
    }
    Ok(())
}

/// The same calls by lines, 1,000 at once.
fn several(count: u64) -> Result<f64, Box<dyn Error>> {
    let mut db = Database::open(1024)?;
    let mut lines = String::new();
    let from = Instant::now();
    for first in (1..=count).step_by(250) {
        lines.clear();
        for ts in first..=count.min(first + 249) {
            let key = ts * 7 % KEYS;
            write!(lines, "0 begin {ts}\n0 put {ts} k{key} v{ts}\n0 get {ts} k{key}\n0 commit {ts}\n")?;
        }
        for result in db.calls(&lines) {
            result?;
        }
    }
    Ok(4.0 * count as f64 / from.elapsed().as_secs_f64())
}

/// A line with too few words.
fn refused(count: u64) -> Result<f64, Box<dyn Error>> {
    let mut db = Database::open(1024)?;
    let from = Instant::now();
    for _ in 0..count {
        assert_eq!(db.call("0 put 10 apple\n").err(), Some(CallError::Line(LineFault::WordCount)));
    }
    Ok(count as f64 / from.elapsed().as_secs_f64())
}

/// A plain map of lists, and a log.
fn plain(count: u64) -> Result<f64, Box<dyn Error>> {
    let mut map: HashMap<String, Vec<(u64, String)>> = HashMap::new();
    let mut log = Vec::new();
    let from = Instant::now();
    for ts in 1..=count {
        let (key, value) = (format!("k{}", ts * 7 % KEYS), format!("v{ts}"));
        map.entry(key.clone()).or_default().push((ts, value.clone()));
        log.push((ts, value.clone()));
        assert_eq!(map[&key].last().map(|(_, last)| last), Some(&value));
    }
    let took = from.elapsed();
    assert_eq!(log.len() as u64, count);
    Ok(2.0 * count as f64 / took.as_secs_f64())
}

fn main() -> Result<(), Box<dyn Error>> {
    let words: Vec<u64> = std::env::args().skip(1).map(|word| word.parse()).collect::<Result<_, _>>()?;
    let &[made, faulty, runs] = words.as_slice() else { return Err("speed TRANSACTIONS REFUSED RUNS".into()) };
    let best = |work: fn(u64) -> Result<f64, Box<dyn Error>>, count| -> Result<f64, Box<dyn Error>> {
        (0..runs).try_fold(0.0, |most: f64, _| Ok(most.max(work(count)?)))
    };
    println!("transactions {:.0}", best(transactions, made)?);
    println!("typed {:.0}", best(typed, made)?);
    println!("threads {:.0}", best(threads, made)?);
    println!("several {:.0}", best(several, made)?);
    println!("refused {:.0}", best(refused, faulty)?);
    println!("plain {:.0}", best(plain, made)?);
    Ok(())
}
