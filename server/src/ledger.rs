//! What the database's events have told so far.
//!
//! `core` notes each event here, by what it did. A refusal changes nothing and is counted by its name.
//!
//! 1. `undecided`, `feeds` and `protections` are exactly those of the database.
//! 2. `greatest` is at or above each timestamp that began, so the next above it and above `closed` is free.
//! 3. `Feed::floor` is the database's own floor of the feed: t after `resolved` t, t - 1 after a row of t, never below
//!    the cursor.
//! 4. `decided` is set by each transaction's end, `moved` once closed has moved or a feed of the server's has ended.
//! 5. `behind` counts the server's own feeds that were not polled since closed moved, without those that wait for their
//!    readers.
//!
//! ```text
//! 0 begin 7 => started       undecided {7}     greatest 7
//! 0 put 7 a 1 => written
//! 0 commit 7 => committed 1  undecided {}      rows.commit(7, 1)   decided
//! 63 close 7 => closed 7 0   closed 7          rows.close(7)       moved
//! ```

use crate::growth::Growth;
use crate::lag::{Amount, ClosedRows};
use crate::memory::ROW;
use crate::outcome::{name_of, Outcome};
use crate::seats::{Owner, Seats};
use std::collections::{BTreeMap, BTreeSet, HashMap, VecDeque};
use std::fmt;
use std::sync::Arc;
use std::time::{Duration, Instant};
use tokio::sync::watch;

/// A consumer's name.
pub type Name = Arc<str>;

/// An undecided transaction.
#[derive(Clone, Copy, Debug)]
pub struct Transaction {
    pub owner: Owner,
    pub since: Instant,
    /// How often it wrote a row, and bytes of the lines that did.
    pub wrote: Amount,
}

/// A live feed.
#[derive(Clone, Debug)]
pub struct Feed {
    pub owner: Owner,
    /// The words of the command that opened it.
    pub opened: String,
    pub floor: u64,
    /// The name that follows it.
    pub consumer: Option<Name>,
    /// Messages that were told.
    pub told: u64,
    /// Whether its reader has no room: `Ledger::set_waits`.
    pub waits: bool,
    is_behind: bool,
}

/// A protection that stands.
#[derive(Clone, Debug)]
pub struct Protection {
    pub owner: Owner,
    pub timestamp: u64,
    /// The name that it is held for.
    pub consumer: Option<Name>,
}

/// Why a feed has ended, as its stream tells it.
#[derive(Clone, Copy, Debug, PartialEq, Eq)]
pub enum Reason {
    Lag,
    Fenced,
    Deleted,
    FeedCancelled,
    Shutdown,
    /// Its reader is gone: no one is told.
    Gone,
}

/// A feed of the server's own that has ended: kept until its stream takes it.
#[derive(Clone, Copy, Debug, PartialEq, Eq)]
pub struct Ended {
    pub reason: Reason,
    pub floor: u64,
}

/// What a collection can't pass.
#[derive(Clone, Copy, Debug, PartialEq, Eq)]
pub enum Holder {
    Closed,
    Feed(u64),
    Protection(u64),
}

/// Closings that came within a few milliseconds.
#[derive(Clone, Copy, Debug)]
pub struct Closings {
    first: Instant,
    pub last: Instant,
    pub at: u64,
}

/// Rows above its floor that a feed passes over within a turn.
const NEAR: u64 = 5000;
/// Rows of a transaction that is decided in some 2 milliseconds.
const FEW: u64 = 5000;
/// Closings within this time are one entry of `Ledger::closings`.
const ONE_ENTRY: Duration = Duration::from_millis(10);

#[derive(Debug, Default)]
pub struct Ledger {
    pub closed: u64,
    pub horizon: u64,
    /// At or above each timestamp that began.
    pub greatest: u64,
    pub undecided: BTreeMap<u64, Transaction>,
    pub feeds: BTreeMap<u64, Feed>,
    pub protections: BTreeMap<u64, Protection>,
    pub rows: ClosedRows,
    pub calls: u64,
    pub collected: u64,
    /// Refusals and faults by name.
    pub refusals: BTreeMap<&'static str, u64>,
    /// Why feeds of the server's own have ended, by name.
    pub ends: BTreeMap<&'static str, u64>,
    /// When closed moved, and where to: what wasn't collected yet.
    pub closings: VecDeque<Closings>,
    /// Bytes that versions took: those of the lines that wrote them, and `ROW` for each.
    pub written: u64,
    /// Those of versions that went before they were collected: of transactions that were aborted, or wrote a row again.
    pub taken_back: u64,
    /// What grows beside rows.
    pub growth: Growth,
    /// A transaction has ended since `closing` looked.
    pub decided: bool,
    /// Closed has moved, or a feed of the server's own has ended, since `door` looked.
    pub moved: bool,
    pub behind: usize,
    /// The server's own feeds: those of sessions may be many, and aren't looked at when closed moves.
    streamed: BTreeSet<u64>,
    ages: BTreeSet<(Instant, u64)>,
    floors: BTreeSet<(u64, u64)>,
    protected: BTreeSet<(u64, u64)>,
    ended: HashMap<u64, Ended>,
    reasons: HashMap<u64, Reason>,
    /// Those that wait for a transaction's decision: its end drops the sender, and so wakes them.
    awaited: HashMap<u64, watch::Sender<()>>,
}

impl Ledger {
    /// Notes what an event did, by a call of this owner.
    pub fn note(&mut self, seats: &mut Seats, owner: Owner, outcome: &Outcome) {
        self.calls += 1;
        match *outcome {
            Outcome::Nothing => {}
            Outcome::Read { read, bytes } => self.growth.read(self.greatest, read, bytes),
            Outcome::Written { ts, bytes, is_delete } => self.wrote(ts, bytes, is_delete),
            Outcome::Started { ts } => self.started(seats, owner, ts),
            Outcome::Committed { ts, rows } => self.committed(seats, ts, rows),
            Outcome::Aborted { ts } => self.end_of(seats, ts, 0),
            Outcome::TooLate { ts } => {
                self.refused("toolate");
                self.end_of(seats, ts, 0);
            }
            Outcome::Closed { at, aborted } => self.close(seats, at, aborted),
            Outcome::Opened { feed, cursor, ref command } => self.opened(seats, owner, feed, cursor, command),
            Outcome::Messages { feed, count, floor } => self.told(feed, count, floor),
            Outcome::Cancelled { feed } => self.cancelled(seats, feed),
            Outcome::Protected { id, at } => self.protected(seats, owner, id, at),
            Outcome::Released { id } => self.released(seats, id),
            Outcome::Collected { horizon, versions } => {
                self.horizon = horizon;
                self.collected += versions;
                self.growth.collect(horizon);
            }
            Outcome::Refused(refusal) => self.refused(name_of(refusal)),
        }
    }

    /// The database was made from what its journal tells: nothing is undecided, and there is no feed and no protection.
    /// Commits are rows and bytes by their timestamps, rising. So what is closed above each timestamp is known as before.
    pub fn recover(&mut self, closed: u64, horizon: u64, commits: &[(u64, Amount)]) {
        for &(ts, amount) in commits {
            self.rows.commit(ts, amount);
            self.written += amount.bytes + ROW * amount.rows;
        }
        // At or below the horizon no timestamp needs a place of its own.
        self.rows.close(horizon);
        commits.iter().filter(|(ts, _)| *ts > horizon).for_each(|(ts, _)| self.rows.close(*ts));
        (self.closed, self.horizon, self.greatest) = (closed, horizon, closed);
        let now = Instant::now();
        self.closings.push_back(Closings { first: now, last: now, at: closed });
    }

    /// A refusal or a fault, to be counted.
    pub fn refused(&mut self, name: &'static str) {
        *self.refusals.entry(name).or_default() += 1;
    }

    /// The least timestamp that is free for sure.
    pub fn next_timestamp(&self) -> u64 {
        self.closed.max(self.greatest).saturating_add(1)
    }

    /// The least undecided timestamp.
    pub fn oldest(&self) -> Option<u64> {
        self.undecided.keys().next().copied()
    }

    /// The undecided transaction that began first.
    pub fn eldest(&self) -> Option<(Instant, u64)> {
        self.ages.first().copied()
    }

    /// Where a collection would have to stop, and what holds it there.
    pub fn limit(&self) -> (u64, Holder) {
        let mut limit = (self.closed, Holder::Closed);
        let feed = self.floors.first().map(|&(floor, number)| (floor, Holder::Feed(number)));
        let protection = self.protected.first().map(|&(timestamp, id)| (timestamp, Holder::Protection(id)));
        for holder in [feed, protection].into_iter().flatten() {
            if holder.0 < limit.0 {
                limit = holder;
            }
        }
        limit
    }

    /// Live feeds, those with the lowest floors first.
    pub fn lowest_feeds(&self) -> impl Iterator<Item = (u64, &Feed)> {
        self.floors.iter().filter_map(|&(_, number)| Some((number, self.feeds.get(&number)?)))
    }

    /// Protections, the lowest first.
    pub fn lowest_protections(&self) -> impl Iterator<Item = (u64, &Protection)> {
        self.protected.iter().filter_map(|&(_, number)| Some((number, self.protections.get(&number)?)))
    }

    /// Whether the commit or the abort of a transaction holds the lock for longer than a turn.
    pub fn takes_long_to_decide(&self, ts: u64) -> bool {
        self.undecided.get(&ts).is_some_and(|transaction| transaction.wrote.rows > FEW)
    }

    /// Changes, by an error, once a transaction is decided.
    pub fn decision_of(&mut self, ts: u64) -> watch::Receiver<()> {
        match self.undecided.contains_key(&ts) {
            true => self.awaited.entry(ts).or_insert_with(|| watch::channel(()).0).subscribe(),
            false => watch::channel(()).1,
        }
    }

    /// Says why a feed is about to be cancelled.
    pub fn will_end(&mut self, feed: u64, reason: Reason) {
        self.reasons.insert(feed, reason);
    }

    /// How a feed of the server's own has ended, once.
    pub fn take_end(&mut self, feed: u64) -> Option<Ended> {
        self.ended.remove(&feed)
    }

    /// Whether a feed may have to pass over more rows than it does within a turn.
    pub fn is_far_behind(&self, feed: u64) -> bool {
        self.feeds.get(&feed).is_some_and(|feed| self.rows.above(feed.floor).rows > NEAR)
    }

    /// Whether a feed's reader has no room. Closing doesn't wait for such a feed.
    pub fn set_waits(&mut self, feed: u64, waits: bool) {
        if waits {
            self.catch_up(feed);
        }
        if let Some(feed) = self.feeds.get_mut(&feed) {
            feed.waits = waits;
        }
    }

    // ---- one rule for each outcome

    fn wrote(&mut self, ts: u64, bytes: u64, is_delete: bool) {
        self.written += bytes + ROW;
        if is_delete {
            self.growth.delete(self.greatest, bytes);
        }
        if let Some(transaction) = self.undecided.get_mut(&ts) {
            transaction.wrote += Amount { rows: 1, bytes };
        }
    }

    fn started(&mut self, seats: &mut Seats, owner: Owner, ts: u64) {
        let since = Instant::now();
        self.undecided.insert(ts, Transaction { owner, since, wrote: Amount::default() });
        self.ages.insert((since, ts));
        self.greatest = self.greatest.max(ts);
        self.growth.begin(self.greatest);
        if let Some(taken) = seats.of_mut(owner) {
            taken.begun.insert(ts);
        }
    }

    fn committed(&mut self, seats: &mut Seats, ts: u64, rows: u64) {
        let bytes = self.undecided.get(&ts).map_or(0, |transaction| transaction.wrote.bytes);
        self.rows.commit(ts, Amount { rows, bytes });
        self.end_of(seats, ts, rows);
    }

    /// A transaction is decided, of which so many rows stay.
    fn end_of(&mut self, seats: &mut Seats, ts: u64, rows: u64) {
        let Some(transaction) = self.undecided.remove(&ts) else { return };
        self.taken_back += of_writes(transaction.wrote, transaction.wrote.rows.saturating_sub(rows));
        self.growth.decide();
        self.ages.remove(&(transaction.since, ts));
        self.awaited.remove(&ts);
        if let Some(taken) = seats.of_mut(transaction.owner) {
            taken.begun.remove(&ts);
        }
        self.decided = true;
    }

    fn close(&mut self, seats: &mut Seats, at: u64, aborted: u64) {
        if aborted > 0 {
            let ended: Vec<u64> = self.undecided.range(..=at).map(|(&ts, _)| ts).collect();
            ended.into_iter().for_each(|ts| self.end_of(seats, ts, 0));
        }
        if at > self.closed {
            self.closed = at;
            self.rows.close(at);
            self.growth.close(at);
            self.note_closing(at);
            self.moved = true;
            self.leave_behind();
        }
    }

    fn note_closing(&mut self, at: u64) {
        let now = Instant::now();
        match self.closings.back_mut() {
            Some(closings) if now - closings.first < ONE_ENTRY => (closings.last, closings.at) = (now, at),
            _ => self.closings.push_back(Closings { first: now, last: now, at }),
        }
    }

    fn opened(&mut self, seats: &mut Seats, owner: Owner, number: u64, cursor: u64, command: &str) {
        let opened = command.to_string();
        let feed = Feed { owner, opened, floor: cursor, consumer: None, told: 0, waits: false, is_behind: false };
        self.feeds.insert(number, feed);
        self.floors.insert((cursor, number));
        match owner {
            Owner::Server => drop(self.streamed.insert(number)),
            Owner::Seat(_) => self.growth.open_feed(command.len() as u64),
        }
        if let Some(taken) = seats.of_mut(owner) {
            taken.feeds.insert(number);
        }
    }

    /// A feed has told so many messages, and needs nothing below its floor, where that has moved.
    pub fn told(&mut self, number: u64, count: u64, floor: u64) {
        self.catch_up(number);
        let Some(feed) = self.feeds.get_mut(&number) else { return };
        feed.told += count;
        if floor > feed.floor {
            self.floors.remove(&(feed.floor, number));
            self.floors.insert((floor, number));
            feed.floor = floor;
        }
    }

    fn cancelled(&mut self, seats: &mut Seats, number: u64) {
        self.catch_up(number);
        let reason = self.reasons.remove(&number).unwrap_or(Reason::FeedCancelled);
        let Some(feed) = self.feeds.remove(&number) else { return };
        self.floors.remove(&(feed.floor, number));
        if feed.owner != Owner::Server {
            self.growth.end_feed(feed.opened.len() as u64);
        }
        if let Some(taken) = seats.of_mut(feed.owner) {
            taken.feeds.remove(&number);
        }
        if self.streamed.remove(&number) {
            *self.ends.entry(reason.name()).or_default() += 1;
            self.ended.insert(number, Ended { reason, floor: feed.floor });
            self.moved = true;
        }
    }

    fn protected(&mut self, seats: &mut Seats, owner: Owner, id: u64, timestamp: u64) {
        self.protections.insert(id, Protection { owner, timestamp, consumer: None });
        self.protected.insert((timestamp, id));
        if owner != Owner::Server {
            self.growth.protect();
        }
        if let Some(taken) = seats.of_mut(owner) {
            taken.protections.insert(id);
        }
    }

    fn released(&mut self, seats: &mut Seats, id: u64) {
        let Some(protection) = self.protections.remove(&id) else { return };
        self.protected.remove(&(protection.timestamp, id));
        if protection.owner != Owner::Server {
            self.growth.release();
        }
        if let Some(taken) = seats.of_mut(protection.owner) {
            taken.protections.remove(&id);
        }
    }

    // ---- feeds that are behind

    fn leave_behind(&mut self) {
        for number in &self.streamed {
            let Some(feed) = self.feeds.get_mut(number) else { continue };
            if !feed.waits && !feed.is_behind {
                feed.is_behind = true;
                self.behind += 1;
            }
        }
    }

    fn catch_up(&mut self, number: u64) {
        if let Some(feed) = self.feeds.get_mut(&number) {
            self.behind -= usize::from(feed.is_behind);
            feed.is_behind = false;
        }
    }
}

/// Bytes that so many of some writes took.
fn of_writes(wrote: Amount, rows: u64) -> u64 {
    rows * (ROW + wrote.bytes / wrote.rows.max(1))
}

impl Reason {
    pub fn name(self) -> &'static str {
        match self {
            Reason::Lag => "lag",
            Reason::Fenced => "fenced",
            Reason::Deleted => "deleted",
            Reason::FeedCancelled => "feedcancelled",
            Reason::Shutdown => "shutdown",
            Reason::Gone => "gone",
        }
    }
}

impl fmt::Display for Reason {
    fn fmt(&self, f: &mut fmt::Formatter<'_>) -> fmt::Result {
        f.write_str(self.name())
    }
}
