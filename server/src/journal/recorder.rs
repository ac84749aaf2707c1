//! What each event means for the journal: what is recorded of it, and what its answer rests on.
//!
//! `core` calls `note` after each event of the database, and `consumers` tells each name's place. Nothing here waits.
//!
//! ```text
//! begin 7, put 7 a 1           kept: `0 put 7 a 1`
//! commit 7 => committed 1      added: begin 7, put 7 a 1, commit 7; the answer's ticket is their batch
//! get 9 a => value 1           the same ticket, until that batch is durable
//! get 9 b => none              no ticket
//! ```
//!
//! A commit of a request with a key has the key's lines beside it (`set_beside`), in one batch.
//!
//! 1. `writes` has what each undecided transaction has written, and nothing of others. Else a commit comes back with
//!    other values.
//! 2. A key is in `fresh` as long as a commit of it isn't durable. Else a read tells of a commit that a crash takes back.
//! 3. No call brings a timestamp in above the mark that is durable. Else a crash gives it twice, and closed falls.
//! 4. Behind the end nothing is called, and nothing is told: the last mark is lower, and no batch comes behind it.

use super::note::{Kept, Note};
use super::rules::{holds, Rule};
use super::store::Place;
use super::writer::{Counts, Drafted, Durable, Position, Ticket, Writer};
use ripsawbean::{Record, Refusal};
use std::collections::{BTreeMap, HashMap, HashSet};
use std::sync::{mpsc, Arc};

/// Timestamps that a mark is drawn ahead.
const AHEAD: u64 = 1 << 16;
/// The greatest timestamp.
const GREATEST: u64 = i64::MAX as u64;
/// Bytes that a transaction has written beyond which lines that are overwritten go.
const COMPACT: usize = 1 << 16;

/// See the module. Without a writer nothing is kept, and nothing waits.
#[derive(Default)]
pub struct Journal {
    writer: Option<Writer>,
    place: Option<Place>,
    writes: HashMap<u64, Writes>,
    fresh: Fresh,
    /// As far as the mark was asked for.
    mark: u64,
    horizon: u64,
    /// The number of the series that is written.
    series: u64,
    /// The last batch that anything was added to.
    last: Ticket,
    /// What the answers since `begin` rest on.
    needed: Ticket,
    /// Lines that stand in the batch of the next commit.
    beside: Vec<u8>,
    /// Whether the last batch is on its way.
    is_over: bool,
    /// Lines that should have stood in an earlier batch.
    #[cfg(test)]
    late: Vec<u8>,
}

impl Journal {
    pub fn new(writer: Writer, place: Option<Place>, position: &Position, horizon: u64) -> Journal {
        let (mark, series) = (position.mark, position.series.number);
        Journal { writer: Some(writer), place, mark, horizon, series, ..Journal::default() }
    }

    pub fn keeps(&self) -> bool {
        self.writer.is_some()
    }

    pub fn durable(&self) -> Durable {
        self.writer.as_ref().map_or(Durable::NOTHING, Writer::durable)
    }

    pub fn counts(&self) -> Option<Arc<Counts>> {
        self.writer.as_ref().map(Writer::counts)
    }

    /// Whether the disk takes far too long, so that answers wait for it.
    pub fn is_stuck(&self) -> bool {
        self.writer.as_ref().is_some_and(Writer::is_stuck)
    }

    // ---- what answers rest on

    /// Answers begin anew.
    pub fn begin(&mut self) {
        self.needed = Ticket::NONE;
    }

    /// What the answers since `begin` rest on.
    pub fn needed(&self) -> Ticket {
        self.needed
    }

    /// What rests on all that was done before.
    pub fn all(&self) -> Ticket {
        self.last
    }

    fn need(&mut self, ticket: Ticket) {
        self.needed = self.needed.max(ticket);
    }

    fn need_by(&mut self, rule: Rule, ticket: Ticket) {
        if holds(rule) {
            self.need(ticket);
        }
    }

    // ---- the mark

    /// Whether a call may bring this timestamp into the database: it is at or below the mark that is durable. If not, the
    /// call has to wait for the ticket. None may once the last batch is on its way, because that has a lower mark.
    pub fn cover(&mut self, timestamp: u64) -> Result<(), Ticket> {
        if self.is_over {
            return Err(Ticket::NEVER);
        }
        let Some(writer) = self.writer.as_ref().filter(|_| timestamp <= GREATEST) else { return Ok(()) };
        let is_durable = timestamp <= writer.durable_mark();
        if is_durable && timestamp.saturating_add(AHEAD / 2) <= self.mark {
            return Ok(());
        }
        self.mark = self.mark.max(timestamp.saturating_add(AHEAD).min(GREATEST));
        let ticket = writer.raise(self.mark);
        if is_durable || !holds(Rule::CallsWaitForTheMark) {
            Ok(())
        } else {
            Err(ticket)
        }
    }

    // ---- events

    /// These lines stand in the batch of the commit that is made next. Who says so says so again with none where that
    /// commit wasn't made.
    pub fn set_beside(&mut self, lines: Vec<u8>) {
        if holds(Rule::AnswersAreKept) {
            self.beside = lines;
        }
    }

    fn take_beside(&mut self) -> Vec<u8> {
        let lines = std::mem::take(&mut self.beside);
        #[cfg(test)]
        if !holds(Rule::AnswersStandBesideTheirCommits) {
            return std::mem::replace(&mut self.late, lines);
        }
        lines
    }

    /// An event of the database. A read of a key and a write were called by this line, with seat and newline. `closed` is
    /// where closed stands.
    pub fn note(&mut self, record: &Record, line: &[u8], closed: u64) {
        use ripsawbean::Outcome as Did;
        let Some(writer) = &self.writer else { return };
        if self.is_over {
            self.needed = Ticket::NEVER;
        }
        match record.outcome {
            Did::Written => self.writes.entry(record.at).or_default().add(line),
            Did::Committed(_) => self.committed(record.at),
            Did::Aborted => drop(self.writes.remove(&record.at)),
            Did::Closed(closed) if closed.aborted > 0 => self.writes.retain(|ts, _| *ts > closed.at),
            Did::Value(_) | Did::None => self.need_by(Rule::ReadsWait, self.fresh.ticket(writer, key_of(line))),
            // Which transaction blocks a scan first rests on what was committed before it.
            Did::Rows(_) | Did::Refused(Refusal::Blocked(_)) => {
                self.need_by(Rule::ScansWait, self.fresh.greatest(writer));
            }
            Did::Collected { horizon, .. } => self.collected(horizon, closed),
            // It may rest on a read that nobody is told of.
            Did::Refused(Refusal::TooLate) => {
                self.writes.remove(&record.at);
                self.need_by(Rule::TooLateWaits, self.last);
            }
            Did::Messages(_) => self.need_by(Rule::MessagesWait, self.last),
            Did::Stats { .. } => self.need_by(Rule::StatsWait, self.last),
            Did::Refused(Refusal::BelowHorizon(_)) => self.need_by(Rule::BelowHorizonWaits, self.last),
            // They promise nothing that the mark doesn't cover.
            Did::Started | Did::Closed(_) | Did::Opened(_) | Did::Cancelled | Did::Protected(_) | Did::Released => {}
            Did::Refused(_) => {}
        }
    }

    fn committed(&mut self, ts: u64) {
        let beside = self.take_beside();
        let Some(writer) = &self.writer else { return };
        let ticket = match self.writes.remove(&ts) {
            Some(writes) => {
                let (begin, commit) = (format!("0 begin {ts}\n"), format!("0 commit {ts}\n"));
                let keys: Vec<Box<[u8]>> = writes.keys().map(Box::from).collect();
                // What a large transaction wrote is handed over, so it takes no more memory while it waits for the disk.
                let ticket = writer.add([begin.into(), writes.lines, commit.into(), beside]);
                self.fresh.add(ticket, keys);
                ticket
            }
            // The mark covers what has written nothing.
            None if beside.is_empty() => return,
            None => writer.add([beside]),
        };
        self.last = ticket;
        self.need_by(Rule::CommitsWait, ticket);
    }

    fn collected(&mut self, horizon: u64, closed: u64) {
        if horizon > self.horizon && holds(Rule::CollectionsAreKept) {
            self.horizon = horizon;
            // What was asked for may be higher than what was answered.
            let closed = if holds(Rule::ClosingsAreKeptAsAnswered) { closed } else { self.mark };
            self.last = self.added(&format!("0 close {closed}\n0 collect {horizon}\n"));
        }
        self.need_by(Rule::CollectionsWait, self.last);
    }

    // ---- what isn't the database's

    /// A name's place has changed.
    pub fn name(&mut self, name: &str, kept: Kept) {
        if self.keeps() && holds(Rule::NamesAreKept) {
            self.add(&Note::Name { name: name.into(), kept }.to_string());
        }
    }

    /// A name is gone. Its generations aren't given again.
    pub fn no_name(&mut self, name: &str, generation: u64) {
        if self.keeps() {
            self.add(&format!("{}{}", generation_note(generation), Note::NoName(name.into())));
        }
    }

    fn add(&mut self, lines: &str) {
        self.last = self.added(lines);
        self.need(self.last);
    }

    fn added(&self, lines: &str) -> Ticket {
        self.writer.as_ref().map_or(Ticket::NONE, |writer| writer.add([lines.into()]))
    }

    // ---- series

    /// What is recorded from here on goes to a new series, whose head says all that isn't the database's.
    /// Gives its number, and where the draft of its checkpoint comes from.
    pub fn switch(&mut self, head: Vec<u8>) -> Option<(u64, mpsc::Receiver<Drafted>)> {
        let drafts = self.writer.as_ref()?.switch(head)?;
        self.series += 1;
        Some((self.series, drafts))
    }

    /// The lines of a head.
    pub fn head(&self, identity: &str, generation: u64, names: impl Iterator<Item = (String, Kept)>) -> Vec<u8> {
        let mut head = Note::Database(identity.into()).to_string();
        if let Some(place) = &self.place {
            head.push_str(&Note::Place(place.clone()).to_string());
        }
        head.push_str(&generation_note(generation));
        names.for_each(|(name, kept)| head.push_str(&Note::Name { name, kept }.to_string()));
        head.into_bytes()
    }

    /// The last batch: the mark stands at the greatest timestamp that began or was closed. What is done afterwards is
    /// never durable, so nobody is told of it.
    pub fn end(&mut self, greatest: u64) -> Ticket {
        if holds(Rule::NothingIsCalledBehindTheEnd) {
            (self.is_over, self.last) = (true, Ticket::NEVER);
        }
        self.writer.as_ref().map_or(Ticket::NONE, |writer| writer.end(greatest))
    }
}

fn generation_note(generation: u64) -> String {
    match holds(Rule::GenerationsAreKept) {
        true => Note::Generation(generation).to_string(),
        false => String::new(),
    }
}

/// What an undecided transaction has written, a line each.
#[derive(Default)]
struct Writes {
    lines: Vec<u8>,
    /// Length at which overwritten lines go, where it is more than `COMPACT`.
    most: usize,
}

impl Writes {
    /// Takes a line with its seat.
    fn add(&mut self, line: &[u8]) {
        let words = line.iter().position(|&byte| byte == b' ').map_or(line, |space| &line[space..]);
        self.lines.push(b'0');
        self.lines.extend_from_slice(words);
        if self.lines.len() > self.most.max(COMPACT) {
            let lines = self.lines.split_inclusive(|&byte| byte == b'\n');
            let last: BTreeMap<&[u8], &[u8]> = lines.map(|line| (key_of(line), line)).collect();
            self.lines = last.into_values().flatten().copied().collect();
            self.most = 2 * self.lines.len();
        }
    }

    fn keys(&self) -> impl Iterator<Item = &[u8]> {
        self.lines.split_inclusive(|&byte| byte == b'\n').map(key_of)
    }
}

/// The key's word in a line `SEAT COMMAND TIMESTAMP KEY ..`.
fn key_of(line: &[u8]) -> &[u8] {
    let key = line.splitn(5, |&byte| byte == b' ').nth(3).unwrap_or(b"");
    key.strip_suffix(b"\n").unwrap_or(key)
}

/// Keys of commits that aren't durable: those of the batch that gathers, and of the one on its way.
#[derive(Default)]
struct Fresh {
    now: (Ticket, HashSet<Box<[u8]>>),
    before: (Ticket, HashSet<Box<[u8]>>),
}

impl Fresh {
    fn add(&mut self, ticket: Ticket, keys: Vec<Box<[u8]>>) {
        if ticket != self.now.0 {
            // What was before these two is durable: one batch is on its way at a time. Behind the end nothing is told.
            std::mem::swap(&mut self.now, &mut self.before);
            self.now.0 = ticket;
            self.now.1.clear();
        }
        self.now.1.extend(keys);
    }

    fn ticket(&self, writer: &Writer, key: &[u8]) -> Ticket {
        self.first(writer, |keys| keys.contains(key))
    }

    fn greatest(&self, writer: &Writer) -> Ticket {
        self.first(writer, |keys| !keys.is_empty())
    }

    fn first(&self, writer: &Writer, holds: impl Fn(&HashSet<Box<[u8]>>) -> bool) -> Ticket {
        let found = [&self.now, &self.before].into_iter().find(|(ticket, keys)| !writer.has(*ticket) && holds(keys));
        found.map_or(Ticket::NONE, |(ticket, _)| *ticket)
    }
}
