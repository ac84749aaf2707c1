//! Closing and collecting: the server's own work on the database.
//!
//! ```text
//! --close-every after one was decided     close as far as transactions are decided
//! each second                             abort transactions that are too old, or whose sessions are silent, by their
//!                                         own seats; let go of what lags too far; collect what was closed some
//!                                         seconds ago, where the horizon moves by it; end silent sessions; wake the
//!                                         streams
//! ```
//!
//! `door` settles after each piece of work, and so closes at once where nothing speaks against it. While streams have
//! yet to take what the closing before has told, the next one waits for them, up to 20 ms: so a hundred readers are
//! woken as often as they can read, and no more often.
//!
//! A hard closing would abort younger transactions below an old one too, so it isn't used. Whoever may only read holds
//! up others' commits for half a second at most, by one transaction or by many. A collection stays
//! `--history` seconds behind closed, so that a timestamp that was just seen can be read.
//!
//! Each answer is foretold by the ledger. Where another comes, the server shouts: a line of the log, and a count in the
//! metrics.

use crate::core::Core;
use crate::door::{Door, Turn};
use crate::growth::Grown;
use crate::lag::Amount;
use crate::ledger::Reason;
use crate::memory::{Growing, Memory, ROW};
use crate::options::Options;
use crate::outcome::Outcome;
use crate::seats::{EndedBy, Owner};
use ripsawbean::Command;
use std::time::{Duration, Instant};

/// How long a closing waits for streams that are behind.
const LONGEST_WAIT: Duration = Duration::from_millis(20);
const SHORTEST_WAIT: Duration = Duration::from_millis(1);
/// An undecided transaction may be so old while memory is full and others grow above it.
const SHORT_AGE: Duration = Duration::from_secs(1);
/// One of a session that may only read, while commits above it wait to be closed.
const READERS_AGE: Duration = Duration::from_millis(500);
/// Rows that one collection lets go within a turn, as far as closings allow.
const ROWS_A_COLLECTION: u64 = 5000;

/// When to close and collect, and what to let go.
#[derive(Debug)]
pub struct Closing {
    every: Duration,
    max_age: Duration,
    history: Duration,
    seat_age: Option<Duration>,
    most: Amount,
    memory: Memory,
    /// Since when a closing is due.
    due: Option<Instant>,
    /// Whether the last closing didn't go as far as it should.
    has_failed: bool,
    /// Whether the timer knows of it.
    is_told: bool,
    /// Where closed stands, and since when committed rows above it wait.
    waits: Option<(u64, Instant)>,
    /// As far as collections may go by now.
    aim: u64,
}

/// What has to be told once the lock is given back.
#[derive(Clone, Copy, Debug, PartialEq, Eq)]
pub struct Settled {
    /// Streams have something to look at.
    pub moved: bool,
    /// A closing has to be done later.
    pub is_due: bool,
}

impl Closing {
    pub fn new(options: &Options) -> Closing {
        Closing {
            every: options.close_every,
            max_age: options.max_age,
            history: options.history,
            seat_age: Some(options.seat_age).filter(|age| !age.is_zero()),
            most: Amount { rows: options.max_lag, bytes: limit(options.max_lag_bytes).unwrap_or(u64::MAX) },
            memory: Memory::new(options.max_memory.and_then(limit)),
            due: None,
            has_failed: false,
            is_told: false,
            waits: None,
            aim: 0,
        }
    }

    /// What may be closed above a reader: less while memory is full, so that those that hold most of it go first.
    fn most(&self, grown: Grown) -> Amount {
        let share = self.memory.share_while_full(grown);
        Amount { rows: self.most.rows.min(share / ROW), bytes: self.most.bytes.min(share) }
    }

    /// Whether the last closing has failed. It comes again each second.
    pub fn has_failed(&self) -> bool {
        self.has_failed
    }

    /// Since when committed rows wait to be closed. It begins anew where closed moves, and others still wait.
    pub fn waits_since(&self) -> Option<Instant> {
        self.waits.map(|(_, since)| since)
    }
}

/// 0 stands for no limit.
fn limit(number: u64) -> Option<u64> {
    Some(number).filter(|&number| number > 0)
}

impl Core {
    /// After each piece of work: closes where that is due.
    pub fn settle(&mut self, now: Instant) -> Settled {
        if std::mem::take(&mut self.ledger.decided) {
            self.closing.due.get_or_insert(now);
        }
        if self.close_at().is_some_and(|at| at <= now) {
            self.close(now);
        }
        self.note_waiting(now);
        let is_due = self.close_at().is_some() && !self.closing.is_told;
        self.closing.is_told |= is_due;
        Settled { moved: std::mem::take(&mut self.ledger.moved), is_due }
    }

    fn note_waiting(&mut self, now: Instant) {
        let closed = self.ledger.closed;
        let since = self.closing.waits.filter(|&(at, _)| at == closed).map_or(now, |(_, since)| since);
        self.closing.waits = self.ledger.rows.has_waiting().then_some((closed, since));
    }

    /// When the closing that is due has to be done.
    fn close_at(&self) -> Option<Instant> {
        let wait = if self.ledger.behind > 0 { LONGEST_WAIT } else { Duration::ZERO };
        let due = self.closing.due.map(|since| since + self.closing.every.max(wait));
        due.into_iter().chain(self.oldest_reader().map(|(_, _, at)| at)).min()
    }

    /// The transaction of a session that may only read, where commits wait for it alone: when it has to end.
    fn oldest_reader(&self) -> Option<(Owner, u64, Instant)> {
        let (&ts, transaction) = self.ledger.undecided.first_key_value().filter(|_| self.ledger.rows.has_waiting())?;
        let Owner::Seat(seat) = transaction.owner else { return None };
        let reads = self.seats.taken(seat).is_some_and(|taken| !taken.may_write);
        reads.then_some((transaction.owner, ts, transaction.since + READERS_AGE.min(self.closing.max_age)))
    }

    /// The timer asks when to come back. `None` where nothing is due.
    fn next_close(&mut self) -> Option<Instant> {
        let at = self.close_at();
        self.closing.is_told = at.is_some();
        at
    }

    /// Closes up to the greatest timestamp that began, or to just below the oldest undecided transaction.
    fn close(&mut self, now: Instant) {
        self.closing.due = None;
        if let Some((owner, ts, _)) = self.oldest_reader().filter(|&(_, _, at)| at <= now) {
            self.abort("old_transaction", owner, ts);
        }
        let greatest = self.ledger.greatest;
        let limit = self.ledger.oldest().map_or(greatest, |oldest| oldest - 1);
        if limit > self.ledger.closed {
            let closed = Outcome::Closed { at: limit, aborted: 0 };
            self.demand(Owner::Server, Command::Close { to: greatest }, &closed);
        }
        self.closing.has_failed = self.ledger.closed < limit;
    }

    // ---- the work of each second, in turns

    /// Closing comes again where memory was wanting.
    fn close_again(&mut self, _until: Instant) -> Turn {
        self.take_spare();
        self.give_back_room();
        self.close(Instant::now());
        Turn::Done
    }

    fn abort_old(&mut self, until: Instant) -> Turn {
        let most = self.most_age();
        while let Some((since, ts)) = self.ledger.eldest().filter(|(since, _)| since.elapsed() > most) {
            let Some(transaction) = self.ledger.undecided.get(&ts) else { break };
            self.abort("old_transaction", transaction.owner, ts);
            if self.ledger.eldest() == Some((since, ts)) {
                break; // for want of memory: again in a second
            }
            if Instant::now() >= until {
                return Turn::More;
            }
        }
        Turn::Done
    }

    /// How old an undecided transaction may be: less where others press, which it holds up.
    fn most_age(&self) -> Duration {
        let Grown { open, deleted, held } = self.growth();
        match open.max(deleted).max(held) {
            Growing::Free => self.closing.max_age,
            Growing::Pressed | Growing::Over => self.closing.max_age.min(SHORT_AGE),
        }
    }

    fn growth(&self) -> Grown<Growing> {
        self.closing.memory.growth(self.ledger.growth.now())
    }

    fn most(&self) -> Amount {
        self.closing.most(self.ledger.growth.now())
    }

    fn abort_idle(&mut self, until: Instant) -> Turn {
        while let Some((seat, ts)) = self.seats.idle() {
            self.abort("idle_transaction", Owner::Seat(seat), ts);
            if self.ledger.undecided.contains_key(&ts) {
                break; // for want of memory: again in a second
            }
            if Instant::now() >= until {
                return Turn::More;
            }
        }
        Turn::Done
    }

    fn abort(&mut self, why: &'static str, owner: Owner, ts: u64) {
        self.log.warn(why, &[("timestamp", ts.into()), ("seat", owner.seat().into())]);
        self.demand(owner, Command::Abort { ts }, &Outcome::Aborted { ts });
    }

    fn let_go_names(&mut self, _until: Instant) -> Turn {
        match self.let_go_names_beyond(self.most()) {
            true => Turn::More,
            false => Turn::Done,
        }
    }

    /// Nothing holds the horizon at a timestamp above which too many rows are closed.
    fn let_go_feeds(&mut self, until: Instant) -> Turn {
        while let Some(feed) = self.feed_beyond() {
            self.log.warn("feed_let_go", &[("feed", feed.into())]);
            self.stop_feed(feed, Reason::Lag);
            if self.ledger.feeds.contains_key(&feed) {
                break; // for want of memory: again in a second
            }
            if Instant::now() >= until {
                return Turn::More;
            }
        }
        Turn::Done
    }

    fn feed_beyond(&self) -> Option<u64> {
        let (number, feed) = self.ledger.lowest_feeds().next()?;
        self.ledger.rows.above(feed.floor).exceeds(self.most()).then_some(number)
    }

    fn let_go_protections(&mut self, until: Instant) -> Turn {
        while let Some(id) = self.protection_beyond() {
            self.log.warn("protection_let_go", &[("protection", id.into())]);
            self.release(id);
            if self.ledger.protections.contains_key(&id) {
                break; // for want of memory: again in a second
            }
            if Instant::now() >= until {
                return Turn::More;
            }
        }
        Turn::Done
    }

    fn protection_beyond(&self) -> Option<u64> {
        let (id, protection) = self.ledger.lowest_protections().find(|(id, _)| self.exempt != Some(*id))?;
        self.ledger.rows.above(protection.timestamp).exceeds(self.most()).then_some(id)
    }

    fn collect(&mut self, until: Instant) -> Turn {
        while let Some(closing) = self.ledger.closings.front().filter(|one| one.last.elapsed() >= self.closing.history)
        {
            self.closing.aim = closing.at;
            self.ledger.closings.pop_front();
        }
        // What held the horizon may go when nothing is closed any more, so each second asks anew.
        let (limit, _) = self.ledger.limit();
        let to = self.closing.aim.min(limit);
        while self.ledger.horizon < to {
            let step = to.min(self.ledger.rows.further(self.ledger.horizon, ROWS_A_COLLECTION));
            if !self.collect_to(step) {
                break;
            }
            if Instant::now() >= until {
                return Turn::More;
            }
        }
        self.ledger.rows.forget_below(self.ledger.horizon.min(limit));
        self.cuts.forget_through(self.ledger.horizon);
        Turn::Done
    }

    /// Collects to a timestamp that nothing speaks against: whether the horizon stands there now.
    fn collect_to(&mut self, to: u64) -> bool {
        let told = match self.ask(Owner::Server, Command::Collect { to }) {
            Ok(Outcome::Collected { horizon, .. }) if horizon == to => return true,
            Ok(outcome) => outcome.to_string(),
            Err(error) => error.to_string(),
        };
        self.shout(&format!("collect {to} => {told}, and not collected {to}"));
        false
    }

    fn end_silent(&mut self, _until: Instant) -> Turn {
        if let Some(age) = self.closing.seat_age {
            self.seats
                .all()
                .filter(|(_, taken)| taken.heard.elapsed() > age)
                .for_each(|(_, taken)| taken.tell_to_end(EndedBy::Silence));
        }
        Turn::Done
    }

    /// Whether there is no memory for more rows.
    pub fn is_full(&self) -> bool {
        self.closing.memory.is_full(self.taken())
    }

    /// Whether transactions may begin, and read. Where memory is full, they may as far as others' are closed.
    pub fn may_read(&self) -> bool {
        self.growth().open < Growing::Over
    }

    /// Whether keys may be deleted. Where memory is full, they may as far as others that were deleted are collected.
    pub fn may_delete(&self) -> bool {
        self.growth().deleted < Growing::Over
    }

    /// Whether sessions may begin, open feeds, and protect. Where memory is full, they may as far as others have ended.
    pub fn may_hold(&self) -> bool {
        self.growth().held < Growing::Over
    }

    /// Whether more was taken since memory was looked at than can wait.
    pub fn has_to_look(&self, now: Instant) -> bool {
        self.closing.memory.is_due(self.taken(), now)
    }

    /// Bytes that were ever taken.
    fn taken(&self) -> u64 {
        self.ledger.written + self.ledger.growth.taken().0
    }

    /// Looks at the memory that the server takes.
    pub fn watch_memory(&mut self, resident: u64) {
        let (rows, growth) = (self.ledger.rows.total, &self.ledger.growth);
        let collected = self.ledger.collected.saturating_mul(ROW + rows.bytes / rows.rows.max(1));
        let (_, given_back) = growth.taken();
        let freed = collected + self.ledger.taken_back + given_back;
        self.closing.memory.look(resident, self.taken(), freed, growth.now());
    }
}

type Step = fn(&mut Core, Instant) -> Turn;

/// What is done each second, one after another.
pub const STEPS: [Step; 9] = [
    Core::close_again,
    Core::abort_old,
    Core::abort_idle,
    Core::let_go_holds,
    Core::let_go_names,
    Core::let_go_feeds,
    Core::let_go_protections,
    Core::collect,
    Core::end_silent,
];

/// The work of a second.
pub async fn tidy(door: &Door, resident: Option<u64>) {
    // Where the kernel doesn't tell it now, it is as full as it was.
    if let Some(resident) = resident {
        door.run(|core| core.watch_memory(resident));
    }
    for step in STEPS {
        door.own_turns(step).await;
    }
    door.ring();
}

/// Closes what `settle` couldn't close at once, for ever.
pub async fn close_when_due(door: &Door) {
    loop {
        door.due().await;
        while let Some(at) = door.run(Core::next_close) {
            // What is due sooner meanwhile tells nobody, and what failed for want of memory comes again.
            let wait = at.saturating_duration_since(Instant::now());
            tokio::time::sleep(wait.clamp(SHORTEST_WAIT, LONGEST_WAIT)).await;
        }
    }
}

#[cfg(test)]
mod tests;
