//! The checkpoint: a copy of the database as it is now, so that the journals before it may go.
//!
//! Calls go on meanwhile. So that nothing falls between the two, the journal goes on in a new series first. Then all that
//! was committed before is at or below the greatest timestamp that began, G, and the copy has it once closed has come
//! there. What is committed meanwhile at or below G stands in both; behind `close G` its lines are refused.
//!
//! ```text
//! journal-2        ..| journal-3 from here on: identity, names
//! checkpoint-3       | answers to keys, the copy, a quarter of the time
//! finished           | series before 3 go
//! ```
//!
//! 1. The switch comes first, and the copy reaches all that began before it. Else a commit stands in neither.
//! 2. It is finished once all that it has is durable in the journal. Else a crash keeps commits of which nobody was told,
//!    without those before them.
//! 3. Names stand in the new series' head, and answers in the checkpoint, as older series go with theirs. Else a consumer
//!    loses its place, and a request is done twice.
//! 4. One that fails costs nothing, and leaves nothing: it is said in the log, and comes again.

use super::copy::{Broken, Copy, Next};
use super::rules::{holds, Rule};
use super::store::{Draft, Series};
use super::writer::{Drafted, Ticket};
use super::Failure;
use crate::api::remembered::Remembered;
use crate::core::Core;
use crate::routes::Server;
use std::fmt;
use std::sync::atomic::Ordering::Relaxed;
use std::sync::mpsc::Receiver;
use std::thread::sleep;
use std::time::{Duration, Instant};
use tokio::runtime::Handle;

/// How often it is looked whether one is due.
const LOOK: Duration = Duration::from_millis(250);
/// While closed has to move.
const PAUSE: Duration = Duration::from_millis(20);
/// How many times as long as it works it lets others work.
const PACE: u32 = 3;

#[derive(Debug)]
pub enum Error {
    Broken,
    Failure(Failure),
    /// The server ends.
    Ending,
}

impl From<Broken> for Error {
    fn from(_: Broken) -> Error {
        Error::Broken
    }
}

impl From<Failure> for Error {
    fn from(failure: Failure) -> Error {
        Error::Failure(failure)
    }
}

impl fmt::Display for Error {
    fn fmt(&self, f: &mut fmt::Formatter<'_>) -> fmt::Result {
        match self {
            Error::Broken => f.write_str("its protection was released, or there was no memory for it"),
            Error::Failure(failure) => failure.fmt(f),
            Error::Ending => f.write_str("the server ends"),
        }
    }
}

/// Makes checkpoints where they are due, until the server ends. It has a thread of its own.
pub fn run(server: &Server, runtime: &Handle) {
    let Some(counts) = server.door.run(|core| core.journal.counts()) else { return };
    let mut last = 0;
    while !*server.is_ending.borrow() {
        sleep(LOOK);
        if counts.since_checkpoint.load(Relaxed) <= server.options.checkpoint_bytes.max(last) {
            continue;
        }
        match make(server, runtime) {
            Ok(bytes) => {
                last = bytes;
                counts.checkpoints.fetch_add(1, Relaxed);
            }
            Err(Error::Ending) => return,
            Err(error) => server.log.error("checkpoint_failed", &[("why", error.to_string().into())]),
        }
    }
}

/// Makes one. Gives its bytes.
fn make(server: &Server, runtime: &Handle) -> Result<u64, Error> {
    let mut making = server.door.run(|core| Making::begin(core, &server.remembered))?;
    let made = write(server, runtime, &mut making);
    server.door.run(|core| making.end(core));
    made
}

fn write(server: &Server, runtime: &Handle, making: &mut Making) -> Result<u64, Error> {
    making.take_draft()?;
    making.write_answers(&server.remembered)?;
    loop {
        let began = Instant::now();
        let next = server.door.turn(|core, until| making.turn(core, until))?;
        making.write(next)?;
        match next {
            Next::Done => break,
            Next::Wait => sleep(PAUSE),
            Next::More | Next::Take => sleep(began.elapsed() * PACE),
        }
        if *server.is_ending.borrow() {
            return Err(Error::Ending);
        }
    }
    let ticket = server.door.run(|core| making.rests(core));
    runtime.block_on(server.door.until(ticket));
    making.finish()
}

/// A checkpoint that is on its way. What needs the core is done in turns, and what is written is written without it.
pub struct Making {
    copy: Copy,
    drafts: Receiver<Drafted>,
    draft: Option<Box<dyn Draft>>,
    /// How many answers to keys came before the switch.
    answers: u64,
    bytes: u64,
}

impl Making {
    pub fn begin(core: &mut Core, remembered: &Remembered) -> Result<Making, Error> {
        let head = core.journal_head();
        let (number, drafts) = core.journal.switch(head).ok_or(Error::Ending)?;
        let copy = Copy::begin(core, Series::checkpoint(number), core.ledger.greatest)?;
        core.exempt = Some(copy.protection());
        Ok(Making { copy, drafts, draft: None, answers: remembered.count(), bytes: 0 })
    }

    /// Whether the switch is durable. The server waits for that.
    #[cfg(test)]
    pub fn has_draft(&mut self) -> bool {
        if self.draft.is_none() {
            self.draft = self.drafts.try_recv().ok().and_then(Result::ok);
        }
        self.draft.is_some()
    }

    /// Waits for the switch.
    pub fn take_draft(&mut self) -> Result<(), Error> {
        self.draft = Some(self.drafts.recv().map_err(|_| Error::Ending)??);
        Ok(())
    }

    /// Answers from before the switch stand in journals that go, and so in the checkpoint, as far as they count.
    pub fn write_answers(&mut self, remembered: &Remembered) -> Result<(), Error> {
        let mut from = 0;
        while from < self.answers && holds(Rule::AnswersAreCarried) {
            let (answers, next) = remembered.some(from, self.answers);
            self.copy.add(&answers);
            if self.copy.is_full() {
                self.write(Next::Take)?;
            }
            from = next;
        }
        Ok(())
    }

    pub fn turn(&mut self, core: &mut Core, until: Instant) -> Result<Next, Error> {
        Ok(self.copy.turn(core, until)?)
    }

    /// Writes the batch that is to be taken, if one is.
    pub fn write(&mut self, next: Next) -> Result<(), Error> {
        if let (Next::Take | Next::Done, Some(draft)) = (next, &mut self.draft) {
            let piece = self.copy.take();
            draft.write(&piece)?;
            self.bytes += piece.len() as u64;
        }
        Ok(())
    }

    /// What it has is durable in the journal first.
    pub fn rests(&self, core: &Core) -> Ticket {
        core.journal.all()
    }

    /// Puts it in its place. Gives its bytes.
    pub fn finish(&mut self) -> Result<u64, Error> {
        self.draft.take().ok_or(Error::Broken)?.finish()?;
        Ok(self.bytes)
    }

    /// Nothing is held for it any more, also where it came to nothing.
    pub fn end(&self, core: &mut Core) {
        core.exempt = None;
        self.copy.end(core);
    }
}
