//! A client's lines, each to its event's text or its fault.
//!
//! `session` hands over a message or a body as `Lines`, and asks for one turn after another. Before the database sees a
//! line:
//!
//! ```text
//! begin            the timestamp is drawn: above closed and above each that began
//! get . KEY        `.` is the timestamp that the session began last; so in scan, put, del, commit and abort
//! begin TS         is refused far ahead of all others, and so are close and closehard: it would end the database
//! poll, release    are refused for what the server holds for a stream or a name
//! poll FEED MAX    has a MAX of 63 at most
//! ```
//!
//! Whoever wrote `commit .` into a message hasn't seen what failed before it in that message. So behind a fault, and
//! behind a line with a dot that was refused, lines with a dot are left out, and `commit .` becomes `abort .`:
//!
//! ```text
//! begin              0 0 begin 1 => started
//! put . k 10 EUR     fault 2 1 wordcount put takes TS KEY VALUE; a space inside a word is spelled %20
//! put . paid yes     fault 3 71 skipped a line before it in this message failed: commit . aborts
//! commit .           1 0 abort 1 => aborted
//! ```
//!
//! `begin` and the next message begin anew. A line with a timestamp is taken as it stands.
//!
//! 1. A line is answered by exactly one event or one `fault LINE CODE NAME WHY`, in its order. LINE counts the session's
//!    lines from 1.
//! 2. A faulty line makes no call, and the session goes on.
//! 3. Codes below 64 are the database's own, which docs/GUIDE.md lists. Those from 64 on are the server's.
//! 4. A line whose answer may be long waits until unread answers have room: `Lines::has_room`.
//! 5. A line whose call holds the lock for longer than a turn waits for the lane: `Lines::length`. A scan or a poll is
//!    tried with a short answer before.

use crate::core::{may_be_long, Core};
use crate::cuts;
use crate::door::{Length, Turn};
use crate::faults::why;
use crate::gate::Right;
use crate::journal::Ticket;
use crate::options::Options;
use crate::outcome::Outcome;
use crate::seats::{Owner, Session};
use crate::shares::FREE;
use ripsawbean::{unspell, CallError};
use std::collections::BTreeMap;
use std::io::Write;
use std::time::Instant;

const GREATEST_LENGTH: usize = 19; // digits of the greatest timestamp
const MOST_POLLED: u64 = 63; // messages: at their longest they have 4 MB, which --max-answer lets through
const SHORT: usize = 1 << 18; // bytes of rows or messages that take some 2 milliseconds

/// What a session may do.
#[derive(Clone, Copy, Debug)]
pub struct Limits {
    ahead: u64,
    pub max_reply: usize,
    pub max_answer: usize,
    max_held: usize,
    /// The server ends, and no transaction begins any more.
    pub is_draining: bool,
}

impl Limits {
    pub fn of(options: &Options) -> Limits {
        let Options { ahead, max_reply, max_answer, max_held, .. } = *options;
        Limits { ahead, max_reply, max_answer, max_held, is_draining: false }
    }
}

/// The server takes no such line.
#[derive(Clone, Copy, Debug, PartialEq, Eq)]
pub enum Fault {
    NotYours,
    Ahead,
    ReplyTooLong,
    Full,
    TooMany,
    NoRight,
    Draining,
    Skipped,
    AnswerTooLong,
}

impl Fault {
    /// Its code, and its name.
    fn words(self) -> (u8, &'static str) {
        match self {
            Fault::NotYours => (64, "notyours"),
            Fault::Ahead => (65, "ahead"),
            Fault::ReplyTooLong => (66, "replytoolong"),
            Fault::Full => (67, "full"),
            Fault::TooMany => (68, "toomany"),
            Fault::NoRight => (69, "noright"),
            Fault::Draining => (70, "draining"),
            Fault::Skipped => (71, "skipped"),
            Fault::AnswerTooLong => (25, "answertoolong"),
        }
    }
}

/// An answer is lost for want of memory, perhaps that of a call that was made. The session has to end, as its client
/// can't know of it.
#[derive(Clone, Copy, Debug, PartialEq, Eq)]
pub struct Lost;

/// Whole lines, and their answers so far.
#[derive(Debug)]
pub struct Lines {
    data: Vec<u8>,
    taken: usize,
    pub answers: Vec<u8>,
    /// Whether an answer that may be long has room, beside those that others haven't read. Who has the lock sets it.
    pub has_room: bool,
    /// How long a call may be. Who has the lock sets it.
    pub length: Length,
    pub told: Told,
    /// What the answers rest on.
    pub rests: Ticket,
}

/// What was told of some lines so far.
#[derive(Clone, Copy, Debug, Default, PartialEq, Eq)]
pub struct Told {
    /// Whether a line was a fault.
    pub has_fault: bool,
    /// Whether a line was refused.
    pub has_refusal: bool,
    /// Whether a line of the transaction that the dot stands for has failed.
    is_spoiled: bool,
}

impl Lines {
    pub fn new(data: Vec<u8>) -> Lines {
        let (told, rests) = (Told::default(), Ticket::NONE);
        Lines { data, taken: 0, answers: Vec::new(), has_room: true, length: Length::Long, told, rests }
    }

    /// Whether a line was taken.
    pub fn is_begun(&self) -> bool {
        self.taken > 0
    }

    /// Takes lines until this time, one at least. Once the answers are too long, no further call is made. Where it gives
    /// `Turn::Until`, `Turn::Crowded` or `Turn::Long`, the next line waits for that.
    pub fn turn(&mut self, core: &mut Core, session: &mut Session, until: Instant) -> Result<Turn, Lost> {
        core.journal.begin();
        let turn = self.take(core, session, until);
        self.rests = self.rests.max(core.journal.needed());
        turn
    }

    fn take(&mut self, core: &mut Core, session: &mut Session, until: Instant) -> Result<Turn, Lost> {
        while self.taken < self.data.len() {
            let rest = &self.data[self.taken..];
            let end = rest.iter().position(|&byte| byte == b'\n').map_or(rest.len(), |at| at + 1);
            if let Err(ticket) = cover(core, &rest[..end]) {
                return Ok(Turn::Until(ticket));
            }
            if !self.has_room && (self.answers.len() > FREE || may_be_long(&rest[..end])) {
                return Ok(Turn::Crowded);
            }
            session.lines += 1;
            let (line, out) = (&rest[..end], &mut self.answers);
            if out.len() >= core.limits.max_reply {
                self.told.tell(core, session, Fault::ReplyTooLong, line, out)?;
            } else if take(core, session, line, self.length, &mut self.told, out)? == Turn::Long {
                session.lines -= 1;
                return Ok(Turn::Long);
            }
            self.taken += end;
            if Instant::now() >= until {
                return Ok(Turn::More);
            }
        }
        Ok(Turn::Done)
    }
}

/// Takes a line: `Turn::Long` where nothing was done, as its call would be longer than it may.
fn take(
    core: &mut Core,
    session: &mut Session,
    line: &[u8],
    length: Length,
    told: &mut Told,
    out: &mut Vec<u8>,
) -> Result<Turn, Lost> {
    let begins = matches!(line.strip_prefix(b"begin"), Some([] | [b' ' | b'\n', ..]));
    told.is_spoiled &= !begins;
    let has_dot = has_dot(session, line);
    let most = core.limits.max_answer.saturating_sub(out.len());
    let bound = if length == Length::Short { most.min(SHORT) } else { most };
    let owners = aborted_by(core, session, line);
    let made = match prepared(core, session, line, told.is_spoiled && has_dot) {
        Err(fault) => return told.tell(core, session, fault, line, out),
        Ok(_) if length == Length::Short && takes_long(core, session, line) => return Ok(Turn::Long),
        Ok(None) => core.call(session, line, bound, out),
        Ok(Some(other)) => core.call(session, &other, bound, out),
    };
    match made {
        Ok(outcome) => {
            if let Outcome::Closed { at, aborted: 1.. } = outcome {
                owners.into_iter().for_each(|(owner, count)| audit(core, session, "closehard", at, owner, count));
            }
            if matches!(outcome, Outcome::Refused(_) | Outcome::TooLate { .. }) {
                told.has_refusal = true;
                told.is_spoiled |= has_dot;
            }
            Ok(Turn::Done)
        }
        Err(CallError::AnswerTooLong) if bound < most => Ok(Turn::Long),
        Err(CallError::Line(fault)) => told.fault(core, session, fault.code(), fault.name(), line, out),
        Err(CallError::NoMemory) => told.fault(core, session, 12, "nomemory", line, out),
        Err(CallError::Spent) => told.fault(core, session, 13, "spent", line, out),
        Err(CallError::AnswerTooLong) => told.tell(core, session, Fault::AnswerTooLong, line, out),
        Err(CallError::Unwritten) => Err(Lost),
    }
}

/// Whether a line's call holds the lock for longer than a turn, whatever it tells.
fn takes_long(core: &Core, session: &Session, line: &[u8]) -> bool {
    let whole = line.strip_suffix(b"\n").unwrap_or(line);
    let (command, rest) = match whole.iter().position(|&byte| byte == b' ') {
        Some(at) => (&whole[..at], &whole[at + 1..]),
        None => return false,
    };
    let number = || number_in(rest.split(|&byte| byte == b' ').next()?);
    match command {
        b"scan" | b"scanat" => passes_over(core, session, rest, cuts::FEW),
        b"poll" => number().is_some_and(|feed| core.ledger.is_far_behind(feed)),
        b"commit" | b"abort" => {
            let timestamp = if rest == b"." { session.last } else { number() };
            timestamp.is_some_and(|timestamp| core.ledger.takes_long_to_decide(timestamp))
        }
        b"collect" | b"closehard" => true,
        _ => false,
    }
}

/// Whether the timestamp that a line brings into the database is below the mark that outlives a crash.
fn cover(core: &mut Core, line: &[u8]) -> Result<(), Ticket> {
    let whole = line.strip_suffix(b"\n").unwrap_or(line);
    let mut words = whole.splitn(2, |&byte| byte == b' ');
    let timestamp = match (words.next(), words.next()) {
        (Some(b"begin"), None) => Some(core.ledger.next_timestamp()),
        // What is further ahead than it may be is refused.
        (Some(b"begin" | b"close" | b"closehard"), Some(word)) if bound(core, word).is_ok() => number_in(word),
        _ => None,
    };
    timestamp.map_or(Ok(()), |timestamp| core.journal.cover(timestamp))
}

impl Told {
    fn tell(
        &mut self,
        core: &mut Core,
        session: &Session,
        fault: Fault,
        line: &[u8],
        out: &mut Vec<u8>,
    ) -> Result<Turn, Lost> {
        let (code, name) = fault.words();
        self.fault(core, session, code, name, line, out)
    }

    fn fault(
        &mut self,
        core: &mut Core,
        session: &Session,
        code: u8,
        name: &'static str,
        line: &[u8],
        out: &mut Vec<u8>,
    ) -> Result<Turn, Lost> {
        core.ledger.refused(name);
        // What was left out follows from another fault, or from a refusal.
        self.has_fault |= name != Fault::Skipped.words().1;
        self.is_spoiled = true;
        let told = format!("fault {} {code} {name} {}\n", session.lines, why(name, line));
        // Answers may be long already, and have to move where they grow.
        out.try_reserve(told.len()).map_err(|_| Lost)?;
        out.extend_from_slice(told.as_bytes());
        Ok(Turn::Done)
    }
}

/// Who has ended what is another's, whose it was, and how many.
fn audit(core: &Core, session: &Session, event: &'static str, number: u64, owner: Owner, count: u64) {
    let of = match owner {
        Owner::Server => "the server".to_string(),
        Owner::Seat(seat) => core.seats.taken(seat).map_or_else(String::new, |taken| taken.peer.to_string()),
    };
    let (seat, by) = (session.seat.into(), session.who.name().into());
    let fields =
        [("number", number.into()), ("seat", seat), ("by", by), ("of", of.as_str().into()), ("count", count.into())];
    core.log.audit(event, &fields);
}

/// How many transactions of each a hard closing aborts.
fn aborted_by(core: &Core, session: &Session, line: &[u8]) -> BTreeMap<Owner, u64> {
    let to = line.strip_prefix(b"closehard ").and_then(|rest| number_in(rest.strip_suffix(b"\n")?));
    let mut owners = BTreeMap::new();
    for (_, transaction) in core.ledger.undecided.range(..=to.filter(|_| session.who.may(Right::Operate)).unwrap_or(0))
    {
        *owners.entry(transaction.owner).or_default() += 1;
    }
    owners
}

/// The line that the database is to see, where it is another one.
type Prepared = Result<Option<Vec<u8>>, Fault>;

/// One rule for each command that isn't handed on as it is.
fn prepared(core: &Core, session: &mut Session, line: &[u8], is_spoiled: bool) -> Prepared {
    let whole = line.strip_suffix(b"\n").unwrap_or(line);
    let end = whole.iter().position(|&byte| byte == b' ');
    let (command, rest) = end.map_or((whole, None), |at| (&whole[..at], Some(&whole[at + 1..])));
    check_right(session, command)?;
    check_keys(session, command, rest.unwrap_or(b""))?;
    match (command, rest) {
        (b"get" | b"scan" | b"put" | b"del" | b"commit" | b"abort", Some(rest)) if is_the_servers(core, rest) => {
            Err(Fault::NotYours)
        }
        (b"commit" | b"abort", _) if is_spoiled => Ok(dot(session, b"abort", line)),
        _ if is_spoiled => Err(Fault::Skipped),
        (b"begin", _) => begin(core, session, line, rest),
        (b"get" | b"scan", Some(_)) if !core.may_read() => Err(Fault::Full),
        (b"del", Some(_)) if !core.may_delete() => Err(Fault::Full),
        (b"close", Some(to)) => bound(core, to).map(|()| None),
        (b"closehard", Some(to)) => bound(core, to).map(|()| None),
        (b"put", Some(_)) if !core.is_full() => Ok(dot(session, command, line)),
        (b"put", Some(_)) => Err(Fault::Full),
        (b"scan" | b"scanat", Some(rest)) if passes_over(core, session, rest, cuts::MOST) => Err(Fault::AnswerTooLong),
        (b"openinitial" | b"openinitialevery", Some(rest)) if begins_with_many(core, rest) => Err(Fault::AnswerTooLong),
        (b"get" | b"scan" | b"del" | b"commit" | b"abort", Some(_)) => Ok(dot(session, command, line)),
        (b"open" | b"openinitial" | b"openevery" | b"openinitialevery" | b"protect", Some(_)) if !core.may_hold() => {
            Err(Fault::Full)
        }
        (b"open" | b"openinitial" | b"openevery" | b"openinitialevery", Some(_)) => has_room(core, session, Kind::Feed),
        (b"protect", Some(_)) => has_room(core, session, Kind::Protection),
        (b"poll", Some(rest)) => poll(core, line, rest),
        (b"cancel", Some(rest)) if line.ends_with(b"\n") => cancel(core, session, rest),
        (b"release", Some(rest)) if line.ends_with(b"\n") => release(core, session, rest),
        _ => Ok(None),
    }
}

/// Who may only read writes nothing, who may only write reads nothing, and what changes the database for others is an
/// operator's. `cancel` and `release` ask further where they end what is another's.
fn check_right(session: &Session, command: &[u8]) -> Result<(), Fault> {
    let right = match command {
        b"begin" | b"commit" | b"abort" | b"cancel" | b"release" => Right::Any,
        b"put" | b"del" | b"close" => Right::Write,
        b"closehard" | b"collect" => Right::Operate,
        _ => Right::Read,
    };
    check(session, right)
}

/// Who has a token for some keys names those alone. A word that spells no bytes is the database's to refuse.
fn check_keys(session: &Session, command: &[u8], rest: &[u8]) -> Result<(), Fault> {
    let keys = session.who.keys();
    if keys.is_all() {
        return Ok(());
    }
    let words: Vec<&[u8]> = rest.split(|&byte| byte == b' ').collect();
    let word = |at: usize| words.get(at).copied().unwrap_or(b"");
    let is_within = |at: usize| keys.covers_spelled(word(at), word(at + 1)).unwrap_or(true);
    let key = || unspell(std::str::from_utf8(word(1)).ok()?);
    let is_allowed = match command {
        b"get" | b"put" | b"del" | b"readat" => key().is_none_or(|key| keys.holds(&key)),
        b"scan" | b"scanat" => is_within(1),
        b"open" | b"openinitial" | b"openevery" | b"openinitialevery" => is_within(0),
        _ => true,
    };
    if is_allowed {
        Ok(())
    } else {
        Err(Fault::NoRight)
    }
}

fn check(session: &Session, right: Right) -> Result<(), Fault> {
    if session.who.may(right) {
        Ok(())
    } else {
        Err(Fault::NoRight)
    }
}

fn begin(core: &Core, session: &mut Session, line: &[u8], rest: Option<&[u8]>) -> Prepared {
    session.last = None;
    if core.limits.is_draining {
        return Err(Fault::Draining);
    }
    if !core.may_read() || !core.may_hold() {
        return Err(Fault::Full);
    }
    if let Some(timestamp) = rest {
        bound(core, timestamp)?;
    }
    has_room(core, session, Kind::Transaction)?;
    // Half a line is never taken for a line.
    let is_drawn = rest.is_none() && line.ends_with(b"\n");
    Ok(is_drawn.then(|| format!("begin {}\n", core.ledger.next_timestamp()).into_bytes()))
}

/// Whether a line names a transaction that a request runs. A session may have the server's own seat.
fn is_the_servers(core: &Core, rest: &[u8]) -> bool {
    let number = rest.split(|&byte| byte == b' ').next().and_then(number_in);
    let transaction = number.and_then(|timestamp| core.ledger.undecided.get(&timestamp));
    transaction.is_some_and(|transaction| transaction.owner == Owner::Server)
}

/// Whether a line is of the transaction that the session began last, by a dot.
fn has_dot(session: &Session, line: &[u8]) -> bool {
    let commands: [&[u8]; 6] = [b"get", b"scan", b"put", b"del", b"commit", b"abort"];
    let behind = |command: &&[u8]| line.strip_prefix(*command)?.strip_prefix(b" .");
    let behind = commands.iter().find_map(behind);
    session.last.is_some() && matches!(behind, Some([] | [b' ' | b'\n', ..]))
}

/// The line of a command with the session's last timestamp for a dot as the first word.
fn dot(session: &Session, command: &[u8], line: &[u8]) -> Option<Vec<u8>> {
    let last = session.last.filter(|_| has_dot(session, line))?;
    let behind = line.iter().position(|&byte| byte == b'.')? + 1;
    let mut spelled = Vec::with_capacity(line.len() + GREATEST_LENGTH);
    spelled.extend_from_slice(command);
    // Writing to a vector can't fail.
    let _ = write!(spelled, " {last}");
    spelled.extend_from_slice(&line[behind..]);
    Some(spelled)
}

/// A timestamp is not far ahead of all others.
fn bound(core: &Core, word: &[u8]) -> Result<(), Fault> {
    let most = core.ledger.next_timestamp().saturating_add(core.limits.ahead);
    match number_in(word) {
        Some(number) if number < most => Ok(()),
        _ if is_number(word) => Err(Fault::Ahead),
        _ => Ok(()),
    }
}

enum Kind {
    Transaction,
    Feed,
    Protection,
}

/// A session holds so many things of each kind at most.
fn has_room(core: &Core, session: &Session, kind: Kind) -> Prepared {
    let held = core.seats.taken(session.seat).map_or(0, |taken| match kind {
        Kind::Transaction => taken.begun.len(),
        Kind::Feed => taken.feeds.len(),
        Kind::Protection => taken.protections.len(),
    });
    if held < core.limits.max_held {
        Ok(None)
    } else {
        Err(Fault::TooMany)
    }
}

/// Whether a scan would pass over more cuts than these, whatever it tells: that can't be cut into turns.
fn passes_over(core: &Core, session: &Session, rest: &[u8], most: usize) -> bool {
    let words: Vec<&[u8]> = rest.split(|&byte| byte == b' ').collect();
    is_far(core, number_in(words[0]).or(session.last), &words[1..], most)
}

/// The same of the snapshot that a feed begins with.
fn begins_with_many(core: &Core, rest: &[u8]) -> bool {
    let words: Vec<&[u8]> = rest.split(|&byte| byte == b' ').collect();
    is_far(core, words.get(2).and_then(|word| number_in(word)), &words, cuts::MOST)
}

fn is_far(core: &Core, at: Option<u64>, bounds: &[&[u8]], most: usize) -> bool {
    let key = |at: usize| unspell(std::str::from_utf8(bounds.get(at)?).ok()?);
    // What isn't right is the database's to refuse.
    let (Some(at), Some(lo), Some(hi)) = (at, key(0), key(1)) else { return false };
    let hi = Some(hi.as_slice()).filter(|hi| !hi.is_empty());
    let is_far = core.cuts.passed(&lo, hi, at).nth(most).is_some();
    is_far
}

fn poll(core: &Core, line: &[u8], rest: &[u8]) -> Prepared {
    let mut words = rest.split(|&byte| byte == b' ');
    let Some(number) = words.next().and_then(number_in) else { return Ok(None) };
    if core.ledger.feeds.get(&number).is_some_and(|feed| feed.owner == Owner::Server) {
        return Err(Fault::NotYours);
    }
    let most = words.next().and_then(number_in).filter(|&most| most > MOST_POLLED);
    // Half a line is never taken for a line.
    let is_whole = words.next().is_none() && line.ends_with(b"\n");
    Ok(most.filter(|_| is_whole).map(|_| format!("poll {number} {MOST_POLLED}\n").into_bytes()))
}

fn cancel(core: &Core, session: &Session, rest: &[u8]) -> Prepared {
    let Some(number) = number_in(rest) else { return Ok(None) };
    let owner = core.ledger.feeds.get(&number).map(|feed| feed.owner);
    if let Some(owner) = owner.filter(|owner| *owner != Owner::Seat(session.seat)) {
        check(session, Right::Operate)?;
        audit(core, session, "cancel", number, owner, 1);
    }
    Ok(None)
}

fn release(core: &Core, session: &Session, rest: &[u8]) -> Prepared {
    let Some(id) = number_in(rest) else { return Ok(None) };
    match core.ledger.protections.get(&id).map(|protection| protection.owner) {
        Some(Owner::Server) => return Err(Fault::NotYours),
        Some(owner) if owner != Owner::Seat(session.seat) => {
            check(session, Right::Operate)?;
            audit(core, session, "release", id, owner, 1);
        }
        _ => {}
    }
    Ok(None)
}

/// Whether a word is digits without a leading zero, as the database's numbers are.
fn is_number(word: &[u8]) -> bool {
    word.iter().all(u8::is_ascii_digit) && (word.len() == 1 || !matches!(word.first(), None | Some(b'0')))
}

/// A word as a number, if it is one of 64 bits.
pub fn number_in(word: &[u8]) -> Option<u64> {
    std::str::from_utf8(word).ok().filter(|_| is_number(word))?.parse().ok()
}

#[cfg(test)]
mod tests;
