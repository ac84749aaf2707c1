//! Runs a plan as one transaction: all of it, or nothing.
//!
//! ```text
//! begin TS                      above all that began, and above closed
//! get, scan ..                  conditions, and then the steps of a branch
//! put, del ..
//! commit TS                     or abort TS
//! ```
//!
//! A scan of ten rows reads ten rows, whatever the span holds. It conflicts with what it has read, and no further.
//!
//! A short plan is run under one lock, at a timestamp above all that began. So no write of it comes too late, and no two
//! plans block each other. A session's undecided write may block a read of it: then nothing was changed. A long plan gives
//! the lock back between two turns, until its first write:
//!
//! ```text
//! begin TS  scan  scan  | scan  scan  | scan  put  put  commit TS
//!                       others        others
//! ```
//!
//! 1. It is the same transaction, at the same timestamp: it reads nothing of those that begin meanwhile.
//! 2. It has written nothing while others have the lock, so it blocks none of them. A later one may have read what it
//!    writes, and an operator or its age may have ended it: `Stop::Overtaken`. Under one lock neither happens.
//! 3. When `run` returns, or a turn gives an end or an error, the transaction is decided. Where there was no memory to abort
//!    it, --max-age does it. Whoever lets go of a plan between two turns aborts it.
//! 4. It reads at most `MOST_ROWS` rows by scans, passes over at most `cuts::MOST` parts of spans, and tells at most
//!    --max-reply bytes. A turn reads what takes some 2 milliseconds, and one part more; the last turn writes all.
//! 5. It rests on its own commit, or on those of the keys that it has read. Its timestamp is at or below the mark that is
//!    durable before it begins. Else a crash could take back what someone was told, or give a timestamp twice.
//! 6. A short one is stopped where it has read and written what takes some 2 milliseconds: `Stop::Long`.

mod scan;
mod stop;

use self::scan::Scan;
pub use self::stop::Stop;
use super::bytes::length_of;
use super::plan::{Condition, Plan, Step, Test, SHORT, STEP};
use super::remembered::Keep;
use crate::core::Core;
use crate::journal::rules::{holds, Rule};
use crate::journal::{Form, Ticket};
use crate::outcome::Outcome;
use crate::seats::Owner;
use ripsawbean::{CallError, Command, Refusal as Refused};
use std::borrow::Cow;
use std::collections::BTreeSet;

/// How a plan is run.
#[derive(Clone, Copy, Debug, PartialEq, Eq)]
pub enum Pace {
    /// Under one lock, and no longer than a turn.
    Short,
    /// In turns, until its first write.
    Turns,
    /// Under one lock, however long it is.
    Whole,
}

/// How a plan has ended.
#[derive(Debug, PartialEq)]
pub enum End<'p> {
    Committed(Committed<'p>),
    Failed(Failed<'p>),
}

#[derive(Debug, PartialEq)]
pub struct Committed<'p> {
    pub timestamp: u64,
    pub branch: Branch,
    /// Keys that were written.
    pub written: u64,
    /// One for each step.
    pub results: Vec<Told<'p>>,
    /// How it is told, where that is remembered.
    pub form: Option<Form>,
    /// What it rests on.
    pub rests: Ticket,
}

/// Conditions don't hold, and there is no `else`.
#[derive(Debug, PartialEq)]
pub struct Failed<'p> {
    pub timestamp: u64,
    /// Each condition that doesn't hold, by its place, with what its key was.
    pub found: Vec<(usize, Option<Row<'p>>)>,
    /// What it rests on.
    pub rests: Ticket,
}

#[derive(Clone, Copy, Debug, PartialEq, Eq)]
pub enum Branch {
    Then,
    Else,
}

/// What a step tells.
#[derive(Debug, PartialEq)]
pub enum Told<'p> {
    /// A write.
    Nothing,
    Row(Row<'p>),
    Rows {
        rows: Vec<Row<'p>>,
        more: bool,
    },
}

#[derive(Debug, PartialEq)]
pub struct Row<'p> {
    pub key: Cow<'p, [u8]>,
    pub value: Option<Vec<u8>>,
    /// The timestamp of its value, where it has one.
    pub version: Option<u64>,
}

/// What can be refused before anything is begun.
fn check(core: &Core, plan: &Plan<'_>) -> Result<(), Stop> {
    if core.limits.is_draining {
        return Err(Stop::Draining);
    }
    if !core.may_read() {
        return Err(Stop::Overfull);
    }
    for condition in &plan.conditions {
        match *condition {
            Condition::Unchanged { since, .. } if since > core.ledger.closed => {
                return Err(Stop::NotClosed(core.ledger.closed))
            }
            Condition::Unchanged { since, .. } if since < core.ledger.horizon => {
                return Err(Stop::BelowHorizon(core.ledger.horizon))
            }
            _ => {}
        }
    }
    Ok(())
}

/// A transaction that was begun, and what it has found so far.
pub struct Running<'p> {
    plan: &'p Plan<'p>,
    pace: Pace,
    timestamp: u64,
    /// Whether others have had the lock since it began.
    was_cut: bool,
    /// Conditions that were looked at.
    looked: Vec<Looked<'p>>,
    branch: Option<Branch>,
    /// Steps that were done.
    results: Vec<Told<'p>>,
    /// The scan of which some is read, and where the next part of a comparison begins.
    scan: Option<Scan<'p>>,
    compared: Option<Vec<u8>>,
    /// Keys that it has written.
    own: BTreeSet<&'p [u8]>,
    /// Rows that scans have read, and cuts that they have passed.
    read: usize,
    passed: usize,
    /// What its steps weigh so far, as `plan` weighs them, and what its turn weighs.
    weight: usize,
    turn: usize,
    /// Bytes that are told.
    bytes: usize,
    /// What they rest on.
    rests: Ticket,
}

/// What a condition has found.
enum Looked<'p> {
    Key(&'p Test<'p>, Row<'p>),
    Unchanged(bool),
}

impl<'p> Running<'p> {
    pub fn begin(core: &mut Core, plan: &'p Plan<'_>, pace: Pace) -> Result<Running<'p>, Stop> {
        check(core, plan)?;
        let timestamp = core.ledger.next_timestamp();
        core.journal.cover(timestamp).map_err(Stop::Until)?;
        let running = Running {
            plan,
            pace,
            timestamp,
            was_cut: false,
            looked: Vec::with_capacity(plan.conditions.len()),
            branch: None,
            results: Vec::new(),
            scan: None,
            compared: None,
            own: BTreeSet::new(),
            read: 0,
            passed: 0,
            weight: 0,
            turn: 0,
            bytes: 0,
            rests: Ticket::NONE,
        };
        match core.ask(Owner::Server, Command::Begin { ts: running.timestamp }) {
            Ok(Outcome::Started { .. }) => Ok(running),
            other => {
                let stop = running.stop(core, "begin", other);
                // It may have begun, and its answer is lost.
                running.abort(core);
                Err(stop)
            }
        }
    }

    /// One turn of it: how it has ended, where it has.
    pub fn turn(&mut self, core: &mut Core, keep: Option<&Keep<'_>>) -> Result<Option<End<'p>>, Stop> {
        self.turn = 0;
        core.journal.begin();
        let ended = self.go_on(core).and_then(|end| end.map(|end| self.commit(core, end, keep)).transpose());
        if !matches!(ended, Ok(None | Some(End::Committed(_))) | Err(Stop::Lost)) {
            self.abort(core);
        }
        self.was_cut = true;
        self.rests = self.rested(core);
        ended
    }

    /// What its answer rests on so far.
    fn rested(&self, core: &Core) -> Ticket {
        let needed = if holds(Rule::RequestsWait) { core.journal.needed() } else { Ticket::NONE };
        self.rests.max(needed)
    }

    /// Aborts it, where it isn't decided.
    pub fn abort(&self, core: &mut Core) {
        let ts = self.timestamp;
        if !core.ledger.undecided.contains_key(&ts) {
            return;
        }
        match core.ask(Owner::Server, Command::Abort { ts }) {
            Ok(Outcome::Aborted { .. } | Outcome::Refused(Refused::NoMemory)) | Err(_) => {}
            Ok(other) => {
                self.stop(core, "abort", Ok(other));
            }
        }
    }

    /// What it is told is made before its commit, so that it stands in the journal with it.
    fn commit(&mut self, core: &mut Core, end: End<'p>, keep: Option<&Keep<'_>>) -> Result<End<'p>, Stop> {
        let End::Committed(mut told) = end else { return Ok(end) };
        let kept = keep.map_or(Ok(None), |keep| keep.of(&told))?;
        let mut lines = Vec::new();
        if let Some(kept) = kept.as_ref().filter(|_| core.journal.keeps()) {
            kept.answered().write(&mut lines);
        }
        match core.commit_with(self.timestamp, lines) {
            Ok(Outcome::Committed { rows, .. }) if rows == told.written => {}
            Err(CallError::Unwritten) => return Err(Stop::Lost),
            other => return Err(self.stop(core, "commit", other)),
        }
        told.rests = self.rested(core);
        told.form = keep.zip(kept).map(|(keep, kept)| keep.keep(kept));
        Ok(End::Committed(told))
    }

    /// Looks at its conditions and does its steps, until its turn is over.
    fn go_on(&mut self, core: &mut Core) -> Result<Option<End<'p>>, Stop> {
        if self.branch.is_none() {
            if !self.look(core)? {
                return Ok(None);
            }
            if let Some(failed) = self.choose(core)? {
                return Ok(Some(End::Failed(failed)));
            }
        }
        let branch = self.branch.unwrap_or(Branch::Then);
        if !self.do_steps(core, branch)? {
            return Ok(None);
        }
        let mut results = std::mem::take(&mut self.results);
        self.tell_versions(core, &mut results)?;
        let (timestamp, written) = (self.timestamp, self.own.len() as u64);
        let rests = Ticket::NONE;
        Ok(Some(End::Committed(Committed { timestamp, branch, written, results, form: None, rests })))
    }

    /// Whether all conditions were looked at. Those behind one that doesn't hold are too, so that all are told.
    fn look(&mut self, core: &mut Core) -> Result<bool, Stop> {
        let plan = self.plan;
        while let Some(condition) = plan.conditions.get(self.looked.len()) {
            if self.is_over() {
                return Ok(false);
            }
            let looked = match condition {
                Condition::Key { key, test } => Some(Looked::Key(test, self.get(core, key)?)),
                Condition::Unchanged { span, since } => self.compare(core, span, *since)?.map(Looked::Unchanged),
            };
            self.looked.extend(looked);
        }
        Ok(true)
    }

    /// Chooses the branch that is to be done. Where there is none, it has failed.
    fn choose(&mut self, core: &mut Core) -> Result<Option<Failed<'p>>, Stop> {
        let found = self.failed(core)?;
        let (timestamp, rests) = (self.timestamp, self.rested(core));
        // Only its own branch is told.
        self.bytes = 0;
        self.branch = match (found.is_empty(), &self.plan.otherwise) {
            (true, _) => Some(Branch::Then),
            (false, Some(_)) => Some(Branch::Else),
            (false, None) => return Ok(Some(Failed { timestamp, found, rests })),
        };
        Ok(None)
    }

    /// The conditions that don't hold.
    fn failed(&mut self, core: &mut Core) -> Result<Vec<(usize, Option<Row<'p>>)>, Stop> {
        let mut looked = std::mem::take(&mut self.looked);
        let with_value = |looked| match looked {
            &mut Looked::Key(_, ref mut row) if row.value.is_some() => Some(row),
            _ => None,
        };
        let mut rows: Vec<&mut Row<'p>> = looked.iter_mut().filter_map(with_value).collect();
        self.set_versions(core, &mut rows)?;
        let holds = |looked: &Looked<'_>| match looked {
            Looked::Key(test, row) => test.holds(row.value.as_deref(), row.version),
            Looked::Unchanged(is_unchanged) => *is_unchanged,
        };
        let failed = looked.into_iter().enumerate().filter(|(_, looked)| !holds(looked));
        let row = |looked| match looked {
            Looked::Key(_, row) => Some(row),
            Looked::Unchanged(_) => None,
        };
        Ok(failed.map(|(at, looked)| (at, row(looked))).collect())
    }

    /// Whether all steps of its branch were done.
    fn do_steps(&mut self, core: &mut Core, branch: Branch) -> Result<bool, Stop> {
        let plan = self.plan;
        let steps = match branch {
            Branch::Then => &plan.then[..],
            Branch::Else => plan.otherwise.as_deref().unwrap_or_default(),
        };
        self.results.reserve(steps.len() - self.results.len());
        while let Some(step) = steps.get(self.results.len()) {
            if self.is_over() {
                return Ok(false);
            }
            let told = self.step(core, step)?;
            self.results.extend(told);
        }
        Ok(true)
    }

    /// Whether others get a turn. What it has written would block them, so then it goes on to its end.
    fn is_over(&self) -> bool {
        self.pace == Pace::Turns && self.own.is_empty() && self.turn >= SHORT
    }

    /// What a step tells. Nothing is told of a scan that isn't whole.
    fn step(&mut self, core: &mut Core, step: &'p Step<'_>) -> Result<Option<Told<'p>>, Stop> {
        let ts = self.timestamp;
        if step.writes() {
            self.weigh(step.weight())?;
        }
        match step {
            Step::Put { .. } if core.is_full() => Err(Stop::Full),
            Step::Del { .. } if !core.may_delete() => Err(Stop::Overfull),
            Step::Put { key, value } => self.write(core, "put", key, Command::Put { ts, key, value }).map(Some),
            Step::Del { key } => self.write(core, "del", key, Command::Del { ts, key }).map(Some),
            Step::Get { key } => self.get(core, key).map(|row| Some(Told::Row(row))),
            Step::Scan { span, limit } => self.scan(core, span, *limit),
        }
    }

    fn write(&mut self, core: &mut Core, name: &str, key: &'p [u8], command: Command<'_>) -> Result<Told<'p>, Stop> {
        match core.ask(Owner::Server, command) {
            Ok(Outcome::Written { .. }) => {
                self.own.insert(key);
                Ok(Told::Nothing)
            }
            other => Err(self.stop(core, name, other)),
        }
    }

    fn get(&mut self, core: &mut Core, key: &'p [u8]) -> Result<Row<'p>, Stop> {
        let mut value = None;
        let command = Command::Get { ts: self.timestamp, key };
        match core.show(Owner::Server, command, &mut |event| value = event.value()) {
            Ok(Outcome::Read { .. }) => {}
            other => return Err(self.stop(core, "get", other)),
        }
        self.weigh(STEP + key.len() + value.as_ref().map_or(0, Vec::len))?;
        self.count(core, length_of(key) + value.as_deref().map_or(0, length_of))?;
        Ok(self.row(Cow::Borrowed(key), value))
    }

    /// A row, with its version where it is this transaction's own.
    fn row(&self, key: Cow<'p, [u8]>, value: Option<Vec<u8>>) -> Row<'p> {
        let is_own = value.is_some() && self.own.contains(&*key);
        Row { version: is_own.then_some(self.timestamp), key, value }
    }

    /// Tells the versions of rows that others have written. Those of scans are known by their parts.
    fn tell_versions(&self, core: &mut Core, results: &mut [Told<'p>]) -> Result<(), Stop> {
        let row = |told| match told {
            &mut Told::Row(ref mut row) if row.value.is_some() && row.version.is_none() => Some(row),
            _ => None,
        };
        let mut rows: Vec<&mut Row<'p>> = results.iter_mut().filter_map(row).collect();
        self.set_versions(core, &mut rows)
    }

    /// Sets the versions of rows that others have written. The newest committed version below the timestamp is the one
    /// that was read, because an undecided one would have blocked, and what comes later is too late.
    fn set_versions(&self, core: &mut Core, rows: &mut [&mut Row<'p>]) -> Result<(), Stop> {
        if rows.is_empty() {
            return Ok(());
        }
        let keys: Vec<&[u8]> = rows.iter().map(|row| &*row.key).collect();
        let versions = core.versions_at(self.timestamp, &keys).map_err(|_| Stop::NoMemory)?;
        rows.iter_mut().zip(versions).for_each(|(row, version)| row.version = version);
        Ok(())
    }

    /// Counts what a step weighs.
    fn weigh(&mut self, weight: usize) -> Result<(), Stop> {
        self.weight += weight;
        self.turn += weight;
        match self.pace {
            Pace::Short if self.weight > SHORT => Err(Stop::Long),
            _ => Ok(()),
        }
    }

    /// Counts what is told.
    fn count(&mut self, core: &Core, bytes: usize) -> Result<(), Stop> {
        self.bytes += bytes;
        match self.bytes > core.limits.max_reply {
            true => Err(Stop::ReplyTooLong),
            false => Ok(()),
        }
    }

    /// Why a call didn't do what it should.
    fn stop(&self, core: &mut Core, name: &str, outcome: Result<Outcome, CallError>) -> Stop {
        let alone = if self.was_cut { "" } else { ", in a transaction that runs alone" };
        match outcome {
            Ok(Outcome::Refused(Refused::Blocked(by))) => Stop::Blocked(by, core.ledger.decision_of(by)),
            Ok(Outcome::Refused(Refused::NoMemory)) | Err(CallError::NoMemory | CallError::Unwritten) => Stop::NoMemory,
            Ok(Outcome::TooLate { .. } | Outcome::Refused(Refused::Ended | Refused::NoTxn)) if self.was_cut => {
                Stop::Overtaken
            }
            Ok(outcome) => {
                core.shout(&format!("{name} => {outcome}{alone}"));
                Stop::Unexpected
            }
            Err(error) => {
                core.shout(&format!("{name}: {error}{alone}"));
                Stop::Unexpected
            }
        }
    }
}

#[cfg(test)]
mod tests;
