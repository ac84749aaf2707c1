//! A cache that follows a feed, and says at which timestamp it is complete.
//!
//! A cache keeps the rows of a span of keys. It begins empty over an initial feed, takes the feed's messages one at a
//! time, and refuses what no feed tells, by the rules of crates/replica:
//!
//! ```text
//! message        it is refused where                                            else
//! row            its timestamp is at or below what was resolved last, or        the row is kept, or taken out where it is a
//!                it doesn't come after the row before it: notafter;             delete. The cache is not complete:
//!                its key lies outside the span: outsidespan                     half of a transaction may have been told
//! resolved T     T is at or below what was resolved last, or below the row      the cache is complete: its rows are those of
//!                before it: resolvedback                                        the database at T, for good
//! ```
//!
//! A refusal changes nothing. The program writes each event's text as the database made it, and between them what the
//! cache has, in lines that begin with "cache:". Without these lines it is a transcript for `mvfeed check`, behind a
//! first line "mvfeed 2".

use ripsawbean::{CallError, Command, Database, Event, Message, Row, Span, Spelled};
use std::collections::BTreeMap;
use std::error::Error;
use std::fmt;

/// A message that no feed tells.
#[derive(Clone, Copy, Debug, PartialEq, Eq)]
enum NotTaken {
    NotAfter,
    OutsideSpan,
    ResolvedBack,
}

impl fmt::Display for NotTaken {
    fn fmt(&self, f: &mut fmt::Formatter<'_>) -> fmt::Result {
        f.write_str(match self {
            NotTaken::NotAfter => "notafter",
            NotTaken::OutsideSpan => "outsidespan",
            NotTaken::ResolvedBack => "resolvedback",
        })
    }
}

impl Error for NotTaken {}

struct Cache<'a> {
    span: Span<'a>,
    /// What was resolved last, or where it began.
    resolved: u64,
    /// The row that was taken last.
    last: Option<(u64, Vec<u8>)>,
    /// The timestamp whose rows it has, all of them and none besides.
    complete: Option<u64>,
    rows: BTreeMap<Vec<u8>, Vec<u8>>,
}

impl<'a> Cache<'a> {
    /// Empty, for an initial feed of the span that was opened at `at`: it tells what stands there as rows of that
    /// timestamp.
    fn new(span: Span<'a>, at: u64) -> Cache<'a> {
        Cache { span, resolved: at.saturating_sub(1), last: None, complete: None, rows: BTreeMap::new() }
    }

    fn take(&mut self, message: Message) -> Result<(), NotTaken> {
        match message {
            Message::Row(row) => self.take_row(row),
            Message::Resolved(t) => self.take_resolved(t),
        }
    }

    fn take_row(&mut self, row: Row) -> Result<(), NotTaken> {
        let comes_after = self.last.as_ref().is_none_or(|(ts, key)| (*ts, key) < (row.updated, &row.key));
        if row.updated <= self.resolved || !comes_after {
            return Err(NotTaken::NotAfter);
        }
        if row.key.as_slice() < self.span.lo || self.span.hi.is_some_and(|hi| hi <= row.key.as_slice()) {
            return Err(NotTaken::OutsideSpan);
        }
        match row.after {
            None => self.rows.remove(&row.key),
            Some(value) => self.rows.insert(row.key.clone(), value),
        };
        self.last = Some((row.updated, row.key));
        self.complete = None;
        Ok(())
    }

    fn take_resolved(&mut self, t: u64) -> Result<(), NotTaken> {
        if t <= self.resolved || self.last.as_ref().is_some_and(|(ts, _)| t < *ts) {
            return Err(NotTaken::ResolvedBack);
        }
        self.resolved = t;
        self.complete = Some(t);
        Ok(())
    }

    fn show(&self) {
        let Some(complete) = self.complete else {
            println!("cache: {} rows, not complete", self.rows.len());
            return;
        };
        println!("cache: {} rows, complete at {complete}", self.rows.len());
        for (key, value) in &self.rows {
            println!("cache: row {} {}", Spelled(key), Spelled(value));
        }
    }

    /// Takes a message that no feed tells.
    fn offer(&mut self, line: &str) {
        let message = Message::of(line).expect("a message");
        match self.take(message) {
            Ok(()) => println!("cache: taken: {line}"),
            Err(fault) => println!("cache: {fault}: {line}"),
        }
    }
}

/// Makes a call, and writes its event's text.
fn call<'a>(db: &'a mut Database, seat: u8, command: Command<'_>) -> Result<Event<'a>, CallError> {
    let event = db.make(seat, command)?;
    print!("{event}");
    Ok(event)
}

/// Has the cache take what a poll tells. Whether all was told that is due.
fn poll(db: &mut Database, cache: &mut Cache<'_>, feed: u64, max: u64) -> Result<bool, Box<dyn Error>> {
    let event = call(db, 1, Command::Poll { feed, max })?;
    if event.refusal().is_some() {
        println!("cache: the feed has ended");
        return Ok(true);
    }
    let mut count = 0;
    for message in event.messages() {
        cache.take(message)?;
        count += 1;
    }
    cache.show();
    Ok(count < max)
}

fn compare_with_scan(db: &mut Database, cache: &Cache<'_>) -> Result<(), CallError> {
    let event = call(db, 0, Command::ScanAt { t: cache.resolved, span: cache.span })?;
    let rows: BTreeMap<_, _> = event.rows().collect();
    let same = if rows == cache.rows { "the same rows" } else { "OTHER ROWS" };
    println!("cache: {same} as the scan at {}", cache.resolved);
    Ok(())
}

fn main() -> Result<(), Box<dyn Error>> {
    let mut db = Database::open(1024)?;
    let db = &mut db;

    // Seat 0 writes fruit, and one tool. Keys and values are any bytes.
    call(db, 0, Command::Begin { ts: 10 })?;
    call(db, 0, Command::Put { ts: 10, key: b"fruit/apple", value: b"3" })?;
    call(db, 0, Command::Put { ts: 10, key: "fruit/açaí".as_bytes(), value: b"a cup" })?;
    call(db, 0, Command::Put { ts: 10, key: b"fruit/fig", value: b"" })?;
    call(db, 0, Command::Put { ts: 10, key: b"fruit/kiwi", value: b"-" })?;
    call(db, 0, Command::Put { ts: 10, key: b"tool/saw", value: b"1" })?;
    call(db, 0, Command::Commit { ts: 10 })?;
    call(db, 0, Command::Close { to: 10 })?;

    // Seat 1 follows the fruit: the keys from "fruit/" up to, and without, "fruit0".
    let span = Span { lo: b"fruit/", hi: Some(b"fruit0") };
    let mut cache = Cache::new(span, 10);
    call(db, 1, Command::OpenInitial { span, cursor: 10 })?;
    while !poll(db, &mut cache, 1, 3)? {}
    compare_with_scan(db, &cache)?;

    // Transactions commit in any order; nothing of them is told before it is closed.
    call(db, 2, Command::Begin { ts: 30 })?;
    call(db, 2, Command::Put { ts: 30, key: b"fruit/apple", value: b"5" })?;
    call(db, 2, Command::Commit { ts: 30 })?;
    call(db, 0, Command::Begin { ts: 20 })?;
    call(db, 0, Command::Put { ts: 20, key: b"fruit/apple", value: b"4" })?;
    call(db, 0, Command::Del { ts: 20, key: b"fruit/fig" })?;
    call(db, 0, Command::Commit { ts: 20 })?;
    poll(db, &mut cache, 1, 100)?;
    call(db, 0, Command::Close { to: 40 })?;
    while !poll(db, &mut cache, 1, 1)? {}
    compare_with_scan(db, &cache)?;

    // What no feed tells is refused, and changes nothing.
    cache.offer(r#"{"after":"Nw==","key":"ZnJ1aXQvYXBwbGU=","updated":"40"}"#);
    cache.offer(r#"{"after":"Nw==","key":"dG9vbC9zYXc=","updated":"50"}"#);
    cache.offer(r#"{"resolved":"40"}"#);
    cache.show();

    // The feed is cancelled. The cache was complete, so a new feed from there on continues it.
    call(db, 2, Command::Cancel { feed: 1 })?;
    poll(db, &mut cache, 1, 100)?;
    call(db, 1, Command::Open { span, cursor: cache.resolved })?;
    call(db, 0, Command::Begin { ts: 50 })?;
    call(db, 0, Command::Put { ts: 50, key: b"fruit/fig", value: b"7" })?;
    call(db, 0, Command::Commit { ts: 50 })?;
    call(db, 0, Command::Close { to: 60 })?;
    poll(db, &mut cache, 2, 100)?;
    compare_with_scan(db, &cache)?;
    Ok(())
}
