//! What grows though no rows are put: transactions and their reads until they are closed, deletes until they are
//! collected, and what sessions hold until they end it: undecided transactions, feeds, protections. While memory is full
//! each of the three may grow by a share of `--max-memory`, and no more.
//!
//! `ledger` tells it of each event. `memory` has the bound, by which `lines` and `run` refuse.
//!
//! ```text
//! begin 7, get 7 a     open 336       close 7      open 0
//! begin 8, del 8 b     deleted 467    collect 8    deleted 0
//! protect 7            held 260       release 1    held 0
//! ```
//!
//! 1. A step has what was noted while no timestamp above its own had begun, since the step before. So it is gone once
//!    closed stands there, or the horizon.
//! 2. Timestamps of steps rise, and a step has `STEP` bytes before the next one begins: so there are few.
//! 3. What was read stays in the library behind its closing, until it has doubled. So `memory` lays room aside for it twice.
//! 4. Feeds that are streamed, and protections of names and of requests, have bounds of their own, and `reserve` has them.

use std::collections::VecDeque;

// This is what resident memory grows by, and somewhat more. server/testing/attack_growth.py makes some hundred thousand of
// each kind and compares. An empty transaction takes 29 bytes, and one that deletes 145. A key that is read takes 250 and,
// above 24 bytes, twice its length; each bound of a span 94 and, above 24 bytes, its length. A delete takes 340 and, above
// 24 bytes, three times its key. A transaction that is undecided takes 221, a protection 217, and a feed 490 and twice its
// command.

/// Bytes that a transaction takes until it is closed, also one that was decided.
const BEGUN: u64 = 40;
/// Bytes that it takes beside that until it is decided.
const UNDECIDED: u64 = 210;
/// Bytes that a key takes that is read, and how often it is kept.
const READ: u64 = 280;
const READ_COPIES: u64 = 2;
/// Bytes that each bound of a span takes that is read, beside its length.
const BOUND: u64 = 120;
/// Bytes that a delete takes, where its key has no other version, beside its line.
const DELETED: u64 = 440;
/// How often a deleted key is kept.
const COPIES: u64 = 3;
/// Bytes that a protection takes.
const PROTECTED: u64 = 260;
/// Bytes that a feed takes beside its command.
const FEED: u64 = 600;
/// How often a feed's command is kept, or its span.
const COMMANDS: u64 = 3;
/// Bytes that one step has.
const STEP: u64 = 1 << 16;

/// What a transaction reads by one call.
#[derive(Clone, Copy, Debug, PartialEq, Eq)]
pub enum Read {
    Key,
    Span,
}

/// Something of either kind, such as its bytes.
#[derive(Clone, Copy, Debug, Default, PartialEq, Eq)]
pub struct Grown<T = u64> {
    /// Transactions and reads that aren't closed.
    pub open: T,
    /// Deletes that aren't collected.
    pub deleted: T,
    /// Undecided transactions, and sessions' feeds and protections.
    pub held: T,
}

impl<T> Grown<T> {
    /// Each kind with that of another.
    pub fn zip<U, V>(self, other: Grown<U>, with: impl Fn(T, U) -> V) -> Grown<V> {
        Grown {
            open: with(self.open, other.open),
            deleted: with(self.deleted, other.deleted),
            held: with(self.held, other.held),
        }
    }
}

#[derive(Debug, Default)]
pub struct Growth {
    open: Steps,
    deleted: Steps,
    /// Transactions that are undecided.
    undecided: u64,
    /// Bytes of feeds and protections that sessions hold, and all that they ever held.
    held: u64,
    ever_held: u64,
}

#[derive(Debug, Default)]
struct Steps {
    /// Timestamps, and bytes.
    steps: VecDeque<(u64, u64)>,
    bytes: u64,
    /// All that ever came.
    total: u64,
}

impl Growth {
    /// A transaction has begun. `greatest` is at or above each timestamp that has.
    pub fn begin(&mut self, greatest: u64) {
        self.open.add(greatest, BEGUN);
        self.undecided += 1;
    }

    /// A transaction was decided.
    pub fn decide(&mut self) {
        self.undecided -= 1;
    }

    /// A transaction has read a key, or a span by its two bounds, which have so many bytes.
    pub fn read(&mut self, greatest: u64, read: Read, bytes: u64) {
        self.open.add(greatest, of_read(read, bytes));
    }

    /// A transaction has deleted a key, by a line of so many bytes.
    pub fn delete(&mut self, greatest: u64, bytes: u64) {
        self.deleted.add(greatest, DELETED + COPIES * bytes);
    }

    pub fn close(&mut self, closed: u64) {
        self.open.pass(closed);
    }

    pub fn collect(&mut self, horizon: u64) {
        self.deleted.pass(horizon);
    }

    /// A session protects.
    pub fn protect(&mut self) {
        self.hold(PROTECTED);
    }

    pub fn release(&mut self) {
        self.held -= PROTECTED;
    }

    /// A session has opened a feed, by a command of so many bytes.
    pub fn open_feed(&mut self, bytes: u64) {
        self.hold(of_feed(bytes));
    }

    pub fn end_feed(&mut self, bytes: u64) {
        self.held -= of_feed(bytes);
    }

    fn hold(&mut self, bytes: u64) {
        self.held += bytes;
        self.ever_held += bytes;
    }

    pub fn now(&self) -> Grown {
        let held = self.held + UNDECIDED * self.undecided;
        Grown { open: self.open.bytes, deleted: self.deleted.bytes, held }
    }

    /// Bytes that all but deletes ever took, and those that were given back.
    pub fn taken(&self) -> (u64, u64) {
        let taken = self.open.total + self.ever_held;
        (taken, taken - self.open.bytes - self.held)
    }
}

fn of_read(read: Read, bytes: u64) -> u64 {
    match read {
        Read::Key => READ + READ_COPIES * bytes,
        Read::Span => 2 * BOUND + bytes,
    }
}

fn of_feed(bytes: u64) -> u64 {
    FEED + COMMANDS * bytes
}

impl Steps {
    fn add(&mut self, greatest: u64, bytes: u64) {
        self.bytes += bytes;
        self.total += bytes;
        match self.steps.back_mut() {
            Some((at, step)) if *at == greatest || *step < STEP => (*at, *step) = (greatest, *step + bytes),
            _ => self.steps.push_back((greatest, bytes)),
        }
    }

    fn pass(&mut self, timestamp: u64) {
        while let Some((_, bytes)) = self.steps.front().filter(|(at, _)| *at <= timestamp) {
            self.bytes -= bytes;
            self.steps.pop_front();
        }
    }
}

#[cfg(test)]
mod tests {
    use super::*;

    #[test]
    fn closing_ends_what_is_open_and_a_collection_what_is_deleted() {
        let mut growth = Growth::default();
        growth.begin(7);
        growth.read(7, Read::Key, 10);
        growth.delete(7, 20);
        let wanted = Grown { open: BEGUN + READ + 20, deleted: DELETED + 60, held: 0 };
        assert_eq!(growth.now(), Grown { held: UNDECIDED, ..wanted });
        growth.decide();
        growth.close(6);
        growth.collect(6);
        assert_eq!(growth.now(), wanted);
        growth.close(7);
        assert_eq!(growth.now(), Grown { open: 0, ..wanted });
        assert_eq!(growth.taken(), (wanted.open, wanted.open));
        growth.collect(8);
        assert_eq!(growth.now(), Grown::default());
    }

    #[test]
    fn nothing_is_given_back_too_early_and_there_are_few_steps() {
        let mut growth = Growth::default();
        for at in 1..=10_000 {
            growth.read(at, Read::Key, 0);
        }
        let few = 10_000 * READ / STEP + 1;
        assert!(growth.open.steps.len() as u64 <= few);
        for closed in 1..=10_000 {
            growth.close(closed);
            let left = (10_000 - closed) * READ;
            assert!((left..=left + STEP + READ).contains(&growth.now().open), "{closed}");
        }
        assert_eq!((growth.now(), growth.open.steps.len()), (Grown::default(), 0));
    }

    #[test]
    fn what_sessions_hold_goes_as_it_came() {
        let mut growth = Growth::default();
        growth.protect();
        growth.open_feed(20);
        let held = PROTECTED + FEED + COMMANDS * 20;
        assert_eq!((growth.now(), growth.taken()), (Grown { held, ..Grown::default() }, (held, 0)));
        growth.release();
        growth.end_feed(20);
        assert_eq!((growth.now(), growth.taken()), (Grown::default(), (held, held)));
    }

    #[test]
    fn one_long_transaction_is_one_step() {
        let mut growth = Growth::default();
        for _ in 0..10_000 {
            growth.delete(7, 20);
        }
        assert_eq!((growth.now().deleted, growth.deleted.steps.len()), (10_000 * (DELETED + 60), 1));
    }
}
