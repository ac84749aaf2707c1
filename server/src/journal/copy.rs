//! A copy of the database as a script, while calls go on: what a checkpoint and a dump have in common.
//!
//! It is the library's dump, piece by piece: each version that is left, by timestamp, at its own. The rows of one timestamp
//! are one transaction. So the copy makes a database that answers as this one does from the horizon on.
//!
//! ```text
//! 0 readat .. database/1914d5866a08f6aa
//! 0 begin 5, 0 put 5 a 1, 0 commit 5                       a version of the map at the horizon 9
//! 0 begin 12, 0 del 12 a, 0 commit 12                      a version above it
//! 0 close 30
//! 0 collect 9                                              so it is whole
//! ```
//!
//! The dump of the whole database would close at all that began. Whoever is undecided then, and commits later, would be
//! refused behind it. So the copy ends at a timestamp to which closed comes first, and has an end of its own there.
//!
//! 1. A piece has rows at or below closed alone: nothing commits there any more. Else a commit is left out.
//! 2. It has exactly what was committed at or below `to`, and what is dead at the horizon is left out.
//! 3. A protection holds the horizon until the copy is dropped by `end`. Where that is released it is broken: a row would
//!    come back that was deleted meanwhile, because the copy has its older version and not the delete.

use super::answers::Answered;
use super::frame::Chain;
use super::note::Note;
use super::rules::{holds, Rule};
use super::store::Series;
use crate::core::Core;
use crate::outcome::Outcome;
use crate::seats::Owner;
use ripsawbean::{Command, DumpPlace};
use std::io::Write;
use std::time::Instant;

/// Bytes of lines that are one batch.
const ENOUGH: usize = 1 << 20;
/// With this the last line of a copy begins, and no other one.
const END: &[u8] = b"0 collect ";

pub struct Copy {
    protection: u64,
    horizon: u64,
    to: u64,
    place: DumpPlace,
    chain: Chain,
    number: u64,
    lines: Vec<u8>,
}

/// What comes next.
#[derive(Clone, Copy, Debug, PartialEq, Eq)]
pub enum Next {
    More,
    /// A batch is full: it is to be taken.
    Take,
    /// Closed has to move first.
    Wait,
    /// All is there, and the last batch is to be taken.
    Done,
}

/// The horizon is held no longer, or there was no memory: the copy can't be finished.
#[derive(Clone, Copy, Debug, PartialEq, Eq)]
pub struct Broken;

/// Whether a copy ends in these lines.
pub fn is_end(lines: &[u8]) -> bool {
    let last = lines.split_inclusive(|&byte| byte == b'\n').next_back();
    last.is_some_and(|last| last.starts_with(END))
}

impl Copy {
    /// Begins a copy of all that is committed at or below a timestamp, or at or below closed where that is higher.
    pub fn begin(core: &mut Core, series: Series, to: u64) -> Result<Copy, Broken> {
        let (horizon, closed) = (core.ledger.horizon, core.ledger.closed);
        let protection = match core.ask(Owner::Server, Command::Protect { t: horizon }) {
            Ok(Outcome::Protected { id, .. }) => id,
            _ => return Err(Broken),
        };
        let to = if holds(Rule::TheCopyReachesWhatBegan) { to.max(closed) } else { closed };
        let (chain, lines) = (Chain::new(&core.identity, series), Note::Database(core.identity.clone()).to_string());
        Ok(Copy { protection, horizon, to, place: DumpPlace::start(), chain, number: 0, lines: lines.into_bytes() })
    }

    /// The protection that holds the horizon.
    pub fn protection(&self) -> u64 {
        self.protection
    }

    /// Adds answers to keys, before any row. A dump has none: its identity is another one.
    pub fn add(&mut self, answers: &[Answered]) {
        answers.iter().for_each(|answered| answered.write(&mut self.lines));
    }

    /// Whether its lines are a batch.
    pub fn is_full(&self) -> bool {
        self.lines.len() >= ENOUGH
    }

    /// Takes pieces until this time, or until something has to be done.
    pub fn turn(&mut self, core: &mut Core, until: Instant) -> Result<Next, Broken> {
        if !core.ledger.protections.contains_key(&self.protection) {
            return Err(Broken);
        }
        loop {
            let next = self.step(core)?;
            if next != Next::More || Instant::now() >= until {
                return Ok(next);
            }
        }
    }

    fn step(&mut self, core: &mut Core) -> Result<Next, Broken> {
        let through = if holds(Rule::TheCopyWaitsForClosed) { self.to.min(core.ledger.closed) } else { self.to };
        core.dump_piece(self.to, through, &mut self.place, &mut self.lines).map_err(|_| Broken)?;
        if self.place.through() >= self.to {
            self.finish();
            return Ok(Next::Done);
        }
        Ok(match () {
            () if self.is_full() => Next::Take,
            () if self.place.through() >= through => Next::Wait,
            () => Next::More,
        })
    }

    /// The batch of the lines that came, with its head.
    pub fn take(&mut self) -> Vec<u8> {
        let mut bytes = Vec::with_capacity(self.lines.len() + 160);
        self.number += 1;
        self.chain.add(self.number, 0, &self.lines, &mut bytes);
        self.lines.clear();
        bytes
    }

    /// Where nothing has begun above it, the dump has written the same by itself.
    fn finish(&mut self) {
        if !self.place.has_ended() {
            let (close, collect) = (Command::Close { to: self.to }, Command::Collect { to: self.horizon });
            // Writing to a vector can't fail.
            let _ = write!(self.lines, "0 {close}\n0 {collect}\n");
        }
    }

    /// Its protection ends, also where it came to nothing.
    pub fn end(&self, core: &mut Core) {
        core.release(self.protection);
    }
}
