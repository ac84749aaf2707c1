//! The one database with what follows it. Every call of the server goes through here.
//!
//! `lines` makes the calls of clients; `closing`, `streams` and `consumers` those of the server. Nothing here waits.
//!
//! 1. Each event of the database is in the ledger and in the transcript, in its order, by the time that the call
//!    returns. So nobody else sees the one without the other.
//! 2. A call that was made is never told as one that wasn't. Where there is no memory for an event's text, room is
//!    given back that was kept for this, and then the transcript's, and the text is asked for again.
//! 3. `identity` is drawn at random at the start. A timestamp means something only together with it, because each start
//!    is a new history.

use crate::api::holds::Holds;
use crate::api::pages::Page;
use crate::closing::Closing;
use crate::cuts::{Cuts, Write};
use crate::door::{Length, Turn};
use crate::journal::recovery::Recovered;
use crate::journal::Journal;
use crate::ledger::{Ledger, Reason};
use crate::lines::Limits;
use crate::log::Log;
use crate::names::Names;
use crate::options::Options;
use crate::outcome::{Given, Outcome};
use crate::seats::{Owner, Seats, Session, OWN_SEAT};
use crate::transcript::Transcript;
use ripsawbean::{
    unspell, CallError, Command, CommandError, Database, DumpError, DumpPlace, Event, OpenError, Outcome as Did,
    Record, Refusal, Room, VersionError,
};
use std::io::Write as _;
use std::sync::Arc;
use std::time::Instant;

/// Bytes that are kept for the text of an event: more than a line and its answer may have, but for rows and messages.
const SPARE: usize = 1 << 20;
/// What the library is opened with, which has no effect.
pub const RING: u32 = 1;
/// Bytes of a dump that are written at once, where no line is longer.
const PIECE: usize = 1 << 14;

pub struct Core {
    database: Database,
    pub identity: String,
    pub ledger: Ledger,
    pub seats: Seats,
    pub transcript: Transcript,
    pub names: Names,
    pub closing: Closing,
    pub journal: Journal,
    pub cuts: Cuts,
    /// A checkpoint's protection: it isn't let go however far it lags.
    pub exempt: Option<u64>,
    pub limits: Limits,
    /// Snapshots that requests hold for a while.
    pub holds: Holds,
    /// Answers that were not the ones that had to come.
    pub shouts: u64,
    pub log: Arc<Log>,
    /// The line that is called, with its seat. It is spelled once.
    line: Vec<u8>,
    spare: Vec<u8>,
}

/// What of an event's text is wanted.
enum Wanted<'a> {
    Nothing,
    /// All of it, behind this.
    Text(&'a mut Vec<u8>),
    /// The lines behind the first one, behind this.
    Messages(&'a mut Vec<u8>),
    /// The event, which this looks at.
    Event(&'a mut dyn FnMut(Event<'_>)),
}

impl Core {
    /// A new and empty database, of which nothing is kept. Who starts the server draws its identity.
    pub fn new(options: &Options, identity: String, log: Arc<Log>) -> Result<Core, OpenError> {
        Ok(Core::of(Database::open(RING)?, identity, options, log))
    }

    /// The database as its journal tells it.
    pub fn recovered(recovered: Recovered, options: &Options, log: Arc<Log>) -> Core {
        let Recovered { mut database, identity, names, generation, closed, horizon, commits, journal, .. } = recovered;
        let next = database.last().map_or(0, |last| last.position + 1);
        let mut core = Core::of(database, identity, options, log);
        core.transcript.begin_at(next);
        core.ledger.recover(closed, horizon, &commits);
        core.recover_names(generation, names);
        // From here on names are told to it.
        core.journal = journal;
        core
    }

    fn of(database: Database, identity: String, options: &Options, log: Arc<Log>) -> Core {
        Core {
            database,
            identity,
            ledger: Ledger::default(),
            seats: Seats::default(),
            transcript: Transcript::new(options.keep, options.keep_bytes),
            names: Names::new(options.max_consumers),
            closing: Closing::new(options),
            journal: Journal::default(),
            cuts: Cuts::default(),
            exempt: None,
            limits: Limits::of(options),
            holds: Holds::default(),
            shouts: 0,
            log,
            line: Vec::new(),
            spare: Vec::with_capacity(SPARE),
        }
    }

    /// Makes the call of a session's line, which has its newline and no seat, and puts the event's text behind `out`. What
    /// has no bound of its own has this many bytes at most. After an error no call was made, but for `Unwritten`: the call
    /// was made, and its text is lost.
    pub fn call(
        &mut self,
        session: &mut Session,
        line: &[u8],
        most: usize,
        out: &mut Vec<u8>,
    ) -> Result<Outcome, CallError> {
        self.line.clear();
        // Writing to a vector can't fail.
        let _ = write!(self.line, "{} ", session.seat);
        self.line.extend_from_slice(line);
        let most = may_be_long(line).then_some(most as u64);
        let outcome = self.call_line(Owner::Seat(session.seat), most, Wanted::Text(out))?;
        match outcome {
            Outcome::Started { ts } => session.last = Some(ts),
            Outcome::Written { ts, is_delete, .. } => {
                let word = key_of(line);
                self.cuts.note(word, Write { ts, is_delete }, || unspell(std::str::from_utf8(word).ok()?));
            }
            _ => {}
        }
        Ok(outcome)
    }

    /// What a command of the server's own did: `Refused(NoMemory)` also where there was none to make the call. Errors
    /// are those of `call`.
    pub fn ask(&mut self, owner: Owner, command: Command<'_>) -> Result<Outcome, CallError> {
        self.make(owner, command, Wanted::Nothing)
    }

    /// The same, and the event is shown. After `Unwritten` the call was made, and nothing is shown.
    pub fn show(
        &mut self,
        owner: Owner,
        command: Command<'_>,
        look: &mut dyn FnMut(Event<'_>),
    ) -> Result<Outcome, CallError> {
        self.make(owner, command, Wanted::Event(look))
    }

    /// Makes the snapshot reads of lines, each with its seat, and shows the event of each. It ends at the first error.
    pub fn show_all(&mut self, reads: &[u8], look: &mut dyn FnMut(Event<'_>)) -> Result<(), CallError> {
        let mut wanted = Wanted::Event(look);
        let mut end = Ok(());
        for made in self.database.calls(reads) {
            match made {
                Ok(event) => {
                    keep(&mut self.transcript, event, &mut wanted);
                    self.ledger.note(&mut self.seats, Owner::Server, &Outcome::Nothing);
                }
                Err(error) => end = end.and(Err(error)),
            }
        }
        if end == Err(CallError::Unwritten) {
            self.ledger.note(&mut self.seats, Owner::Server, &Outcome::Nothing);
            return if self.keep_again(&mut wanted) { Ok(()) } else { end };
        }
        end
    }

    /// Makes a scan of the server's own, as far as its rows find room: the first rows of its span.
    pub fn scan(&mut self, command: Command<'_>, room: Room) -> Result<Page, CommandError> {
        let (scanned, span) = match command {
            Command::Scan { ts, span } => (self.database.scan_within(OWN_SEAT, ts, span, room), span),
            Command::ScanAt { t, span } => (self.database.scan_at_within(OWN_SEAT, t, span, room), span),
            _ => unreachable!("{command} is no scan"),
        };
        let page = scanned.map(|rows| Page::of(rows, span, room));
        if matches!(page, Err(CommandError::Call(error)) if error != CallError::Unwritten) {
            return page;
        }
        let is_told = self.keep_last(&mut Wanted::Nothing);
        // Where its text is lost, the rows aren't.
        let _ = self.note(Owner::Server, Given::Scan(span), is_told);
        page
    }

    /// The version of each key: the timestamp of its newest committed value at or below a timestamp, or `None` where it
    /// has none there. It makes no call.
    pub fn versions_at(&mut self, at: u64, keys: &[&[u8]]) -> Result<Vec<Option<u64>>, VersionError> {
        let mut versions = Vec::new();
        self.database.versions_at(at, keys, &mut versions)?;
        Ok(versions)
    }

    /// Puts the next piece behind `out` of a dump that closes at `at` or above: rows at or below `through`, and behind them
    /// the dump's end, where it closes there or below. It makes no call. After an error all is as it was.
    pub fn dump_piece(
        &mut self,
        at: u64,
        through: u64,
        place: &mut DumpPlace,
        out: &mut Vec<u8>,
    ) -> Result<(), DumpError> {
        let (length, mut room) = (out.len(), PIECE);
        loop {
            out.resize(length + room, 0);
            let written = self.database.dump_piece(at, through, place, &mut out[length..]);
            out.truncate(length + written.unwrap_or(0));
            match written {
                Err(DumpError::NoRoom(wanted)) => room = wanted,
                written => return written.map(drop),
            }
        }
    }

    /// Asks what has one right outcome, and shouts where another comes.
    pub fn demand(&mut self, owner: Owner, command: Command<'_>, expected: &Outcome) {
        match self.ask(owner, command) {
            Ok(outcome) if outcome == *expected => {}
            Ok(outcome) => self.shout(&format!("{command} => {outcome}, and not {expected}")),
            Err(error) => self.shout(&format!("{command}: {error}, and not {expected}")),
        }
    }

    /// Commits a transaction of the server's own that has begun, with these lines beside it in the journal: how many rows
    /// it had. Where there was no memory for the event's text, it is known all the same.
    pub fn commit_with(&mut self, ts: u64, lines: Vec<u8>) -> Result<Outcome, CallError> {
        self.journal.set_beside(lines);
        let made = self.ask(Owner::Server, Command::Commit { ts });
        self.journal.set_beside(Vec::new());
        match (made, self.database.last()) {
            (Err(CallError::Unwritten), Some(Record { at, outcome: Did::Committed(rows), .. })) if at == ts => {
                Ok(Outcome::Committed { ts, rows })
            }
            (made, _) => made,
        }
    }

    /// Polls a feed of the server's own, as far as its messages find room, and puts them behind `out`, a line of JSON
    /// each. After `Unwritten` messages are lost, and the stream has to be cut.
    pub fn poll(&mut self, feed: u64, room: Room, out: &mut Vec<u8>) -> Result<Outcome, CallError> {
        match self.database.poll_within(OWN_SEAT, feed, room.rows, room.bytes).map(drop) {
            Err(CommandError::Call(CallError::NoMemory)) => return Ok(Outcome::Refused(Refusal::NoMemory)),
            Err(CommandError::Call(error)) if error != CallError::Unwritten => return Err(error),
            _ => {}
        }
        let is_told = self.keep_last(&mut Wanted::Messages(out));
        self.note(Owner::Server, Given::Poll, is_told)
    }

    /// Cancels a feed where it lives, so that what streams it ends for this reason.
    pub fn stop_feed(&mut self, feed: u64, reason: Reason) {
        if self.ledger.feeds.contains_key(&feed) {
            self.ledger.will_end(feed, reason);
            self.demand(Owner::Server, Command::Cancel { feed }, &Outcome::Cancelled { feed });
        }
    }

    /// Releases a protection where it stands.
    pub fn release(&mut self, id: u64) {
        if self.ledger.protections.contains_key(&id) {
            self.demand(Owner::Server, Command::Release { id }, &Outcome::Released { id });
        }
    }

    /// Ends what a session has left, and frees its seat, in turns: `Turn::Long` before a call that is longer than it may.
    pub fn end(&mut self, seat: u8, until: Instant, length: Length) -> Turn {
        while let Some(taken) = self.seats.taken_mut(seat) {
            let first = taken.begun.first();
            if length == Length::Short && first.is_some_and(|&ts| self.ledger.takes_long_to_decide(ts)) {
                return Turn::Long;
            }
            // What can't be ended for want of memory is the work of each second: it isn't asked for here again.
            if let Some(ts) = taken.begun.pop_first() {
                self.demand(Owner::Seat(seat), Command::Abort { ts }, &Outcome::Aborted { ts });
            } else if let Some(feed) = taken.feeds.pop_first() {
                self.stop_feed(feed, Reason::FeedCancelled);
            } else if let Some(id) = taken.protections.pop_first() {
                self.release(id);
            } else {
                self.seats.give_back(seat);
            }
            if Instant::now() >= until {
                return Turn::More;
            }
        }
        Turn::Done
    }

    /// The database's own report. `None` where there is no memory for it.
    pub fn state(&mut self) -> Option<String> {
        self.database.state().ok()
    }

    /// Says aloud that an answer was not the one that had to come.
    pub fn shout(&mut self, message: &str) {
        self.shouts += 1;
        self.log.error("shout", &[("why", message.into())]);
    }

    fn make(&mut self, owner: Owner, command: Command<'_>, wanted: Wanted<'_>) -> Result<Outcome, CallError> {
        self.line.clear();
        // Writing to a vector can't fail.
        let _ = writeln!(self.line, "{} {command}", owner.seat());
        let outcome = match self.call_line(owner, None, wanted) {
            Err(CallError::NoMemory) => return Ok(Outcome::Refused(Refusal::NoMemory)),
            Err(error) if error != CallError::Unwritten => return Err(error),
            made => made,
        };
        if let Command::Put { ts, key, .. } | Command::Del { ts, key } = command {
            let is_delete = matches!(command, Command::Del { .. });
            self.cuts.note(key, Write { ts, is_delete }, || Some(key.to_vec()));
        }
        outcome
    }

    /// Makes the call of `line`. Where `most` is given, its answer has so many bytes at most.
    fn call_line(&mut self, owner: Owner, most: Option<u64>, mut wanted: Wanted<'_>) -> Result<Outcome, CallError> {
        let called = match most {
            Some(most) => self.database.calls_within(&self.line, most).next().expect("a line has a result"),
            None => self.database.call(&self.line),
        };
        let is_told = match called {
            Ok(event) => keep(&mut self.transcript, event, &mut wanted),
            Err(CallError::Unwritten) => self.keep_again(&mut wanted),
            Err(error) => return Err(error),
        };
        let line = std::mem::take(&mut self.line);
        let outcome = self.note(owner, Given::Line(&line), is_told);
        self.line = line;
        outcome
    }

    /// The last call was made by its parts: adds its event to the transcript, and tells whether there was memory for that.
    fn keep_last(&mut self, wanted: &mut Wanted<'_>) -> bool {
        match self.database.text() {
            Ok(Some(event)) => keep(&mut self.transcript, event, wanted),
            _ => self.keep_again(wanted),
        }
    }

    /// The last call was made, and there was no memory for its text: whether it could be told after all.
    fn keep_again(&mut self, wanted: &mut Wanted<'_>) -> bool {
        for give in [Core::give_spare, Core::give_transcript] {
            give(self);
            if let Ok(Some(event)) = self.database.text() {
                return keep(&mut self.transcript, event, wanted);
            }
        }
        self.transcript.begin_at(self.transcript.next() + 1);
        self.shout("an event's text found no memory: the transcript begins behind it");
        false
    }

    /// Notes the last event in the ledger and in the journal. Each call of the database ends in this, also where its text
    /// is lost.
    fn note(&mut self, owner: Owner, given: Given<'_>, is_told: bool) -> Result<Outcome, CallError> {
        let record = self.database.last().expect("a call was made");
        let outcome = Outcome::of(&record, &mut self.database, given);
        self.ledger.note(&mut self.seats, owner, &outcome);
        self.journal.note(&record, given.line(), self.ledger.closed);
        if is_told {
            Ok(outcome)
        } else {
            Err(CallError::Unwritten)
        }
    }

    fn give_spare(&mut self) {
        self.spare = Vec::new();
    }

    fn give_transcript(&mut self) {
        self.transcript.begin_at(self.transcript.next());
    }

    /// Room that a long answer needed isn't kept: it would count as memory that is taken.
    pub fn give_back_room(&mut self) {
        self.database.shrink(SPARE);
    }

    /// Keeps room for the text of an event again, where it was given.
    pub fn take_spare(&mut self) {
        if self.spare.capacity() == 0 && self.spare.try_reserve_exact(SPARE).is_err() {
            self.spare = Vec::new();
        }
    }
}

/// Whether a line's answer has no bound of its own.
pub fn may_be_long(line: &[u8]) -> bool {
    let command = line.split(|&byte| byte == b' ').next();
    matches!(command, Some(b"scan" | b"scanat" | b"poll"))
}

/// The key's word in a line `COMMAND TIMESTAMP KEY ..`.
fn key_of(line: &[u8]) -> &[u8] {
    let key = line.splitn(4, |&byte| byte == b' ').nth(2).unwrap_or(b"");
    key.strip_suffix(b"\n").unwrap_or(key)
}

/// Adds an event to the transcript, and tells what is wanted of it: whether there was memory for that.
fn keep(transcript: &mut Transcript, event: Event<'_>, wanted: &mut Wanted<'_>) -> bool {
    let text = event.text();
    transcript.add(text);
    let (out, told) = match wanted {
        Wanted::Nothing => return true,
        Wanted::Event(look) => {
            look(event);
            return true;
        }
        Wanted::Text(out) => (out, text),
        Wanted::Messages(out) => (out, text.split_once('\n').map_or("", |(_, lines)| lines)),
    };
    let is_told = out.try_reserve(told.len()).is_ok();
    if is_told {
        out.extend_from_slice(told.as_bytes());
    }
    is_told
}
