//! What can go wrong, with a variant for each status of `ripsawbean.h`.

use std::error::Error;
use std::fmt;

/// Why a database was not opened.
#[derive(Clone, Copy, Debug, PartialEq, Eq, Hash)]
pub enum OpenError {
    /// The ring is not 1 to 65536.
    RingRange,
    /// There was no memory for it.
    NoMemory,
    /// The processor lacks what the library's code needs, which is x86-64-v2.
    Processor,
}

/// The first fault of a line, in the order of tests: its length, its newline, its bytes, its words, the seat, the
/// command's name, how many arguments it has, the arguments from the left.
#[derive(Clone, Copy, Debug, PartialEq, Eq, Hash)]
pub enum LineFault {
    /// An empty line or word, or the wrong number of words.
    WordCount = 1,
    /// No command has this name.
    UnknownCommand = 2,
    /// No number from 0 to 18446744073709551615 stands where one belongs.
    Number = 3,
    /// A key of no bytes or above 256, or a bound above 257.
    KeyLength = 4,
    /// A value above 65536 bytes.
    ValueLength = 5,
    /// The seat is no number from 0 to 63.
    Session = 6,
    /// The line doesn't end in a newline.
    NoNewline = 7,
    /// More than 200000 bytes stand before the newline.
    LineTooLong = 8,
    /// A byte outside printable ASCII, or a word that is the spelling of no bytes.
    BadByte = 9,
}

/// Why a call has no event to show.
#[derive(Clone, Copy, Debug, PartialEq, Eq, Hash)]
pub enum CallError {
    /// The line is faulty. No call was made.
    Line(LineFault),
    /// No memory for key, value or span. No call was made, and it may be made again.
    NoMemory,
    /// No position is left. No call was made.
    Spent,
    /// **The call was made**, and there was no memory for its text, or for the bytes of its answer.
    /// [`crate::Database::text`] and [`crate::Database::bytes`] ask for them again.
    Unwritten,
    /// The answer would have more bytes than [`crate::Database::calls_within`] lets through. No call was made.
    AnswerTooLong,
}

/// Why a command was refused, with the timestamp that stands in its way. The call was made, and its event changed
/// nothing, but for [`Refusal::TooLate`], which aborts the transaction.
#[derive(Clone, Copy, Debug, PartialEq, Eq, Hash)]
pub enum Refusal {
    /// The timestamp is not above the closed one, which is told.
    BelowClosed(u64),
    /// A transaction began at the timestamp.
    TsUsed,
    /// The timestamp is above 9223372036854775807.
    TsRange,
    /// The version to be read is of this undecided transaction.
    Blocked(u64),
    /// No transaction began at the timestamp.
    NoTxn,
    /// The transaction, or the feed, is another seat's.
    NotOwner,
    /// The transaction has ended.
    Ended,
    /// A later transaction has read what would be written. The transaction is aborted.
    TooLate,
    /// The timestamp is above the closed one, which is told.
    NotClosed(u64),
    /// The timestamp is below the horizon, which is told.
    BelowHorizon(u64),
    /// There is no such protection.
    NoProtection,
    /// There is no such feed.
    NoFeed,
    /// The feed was cancelled.
    FeedCancelled,
    /// There was no memory for it.
    NoMemory,
    /// The gap is out of range.
    GapRange,
}

/// Why a command told nothing.
#[derive(Clone, Copy, Debug, PartialEq, Eq, Hash)]
pub enum CommandError {
    /// The call has no answer to show.
    Call(CallError),
    /// The call was made, and this refusal is its answer.
    Refused(Refusal),
}

/// There was no memory for the text of the last event, or for the bytes of its answer. It may be asked for again.
#[derive(Clone, Copy, Debug, PartialEq, Eq, Hash)]
pub struct Unwritten;

/// There was no memory for what was asked for. It may be asked for again.
#[derive(Clone, Copy, Debug, PartialEq, Eq, Hash)]
pub struct NoMemory;

/// Why no further versions of keys were told.
#[derive(Clone, Copy, Debug, PartialEq, Eq, Hash)]
pub enum VersionError {
    /// The timestamp is below the horizon, so versions may be gone. None was told.
    BelowHorizon,
    /// A key has no byte, or more than 256.
    KeyLength,
    /// There was no memory for a key, or for the versions.
    NoMemory,
}

/// Why no piece of a dump is shown.
#[derive(Clone, Copy, Debug, PartialEq, Eq, Hash)]
pub enum DumpError {
    /// The timestamp where it is to close is above the greatest one.
    Timestamp,
    /// The next lines have no room: so many bytes serve.
    NoRoom(usize),
    /// There was no memory for a row, or for its lines.
    NoMemory,
}

/// Why a poll told nothing.
#[derive(Clone, Debug, PartialEq, Eq, Hash)]
pub enum PollError {
    /// The poll has no event to show.
    Call(CallError),
    /// The poll was made, and this refusal is its answer: `nofeed`, `feedcancelled`, `notowner` or `nomemory`.
    Refused(String),
}

/// Why a replica was not opened, or shows nothing.
#[derive(Clone, Copy, Debug, PartialEq, Eq, Hash)]
pub enum ReplicaError {
    /// The command's line is faulty, or a key that is asked for has no byte or above 256.
    Line(LineFault),
    /// The command opens no feed, or opens it above the greatest timestamp; or an initial one, with rows to begin with.
    NoFeed,
    /// There was no memory for it.
    NoMemory,
    /// The processor lacks what the library's code needs, which is x86-64-v2.
    Processor,
}

/// Why no replica begins with rows.
#[derive(Clone, Copy, Debug, PartialEq, Eq, Hash)]
pub enum BeginError {
    /// It is no feed's, or there was no memory for it.
    Replica(ReplicaError),
    /// A key has no byte or above 256, or a value above 65536.
    NoRows,
    /// The keys don't rise.
    NotAfter,
    /// A key lies outside the span.
    OutsideSpan,
}

/// Why a message was not taken. Nothing changed.
#[derive(Clone, Copy, Debug, PartialEq, Eq, Hash)]
pub enum TakeError {
    /// No feed tells such a message: a number, a key or a value is out of range.
    NoMessage,
    /// A row at or before what was taken: below a resolved timestamp, or not after the last row.
    NotAfter,
    /// A row whose key lies outside the span.
    OutsideSpan,
    /// A resolved timestamp at or below the last one, or below the last row.
    ResolvedBack,
    /// There was no memory for it.
    NoMemory,
}

impl ReplicaError {
    pub(crate) fn of(status: u8) -> ReplicaError {
        match (status, LineFault::of(status)) {
            (_, Some(fault)) => ReplicaError::Line(fault),
            (12, _) => ReplicaError::NoMemory,
            (22, _) => ReplicaError::NoFeed,
            (26, _) => ReplicaError::Processor,
            _ => unreachable!("a replica returned {status}"),
        }
    }
}

impl BeginError {
    pub(crate) fn of(status: u8) -> BeginError {
        match status {
            18 => BeginError::NoRows,
            19 => BeginError::NotAfter,
            20 => BeginError::OutsideSpan,
            _ => BeginError::Replica(ReplicaError::of(status)),
        }
    }
}

impl TakeError {
    pub(crate) fn of(status: u8) -> TakeError {
        match status {
            12 => TakeError::NoMemory,
            18 => TakeError::NoMessage,
            19 => TakeError::NotAfter,
            20 => TakeError::OutsideSpan,
            21 => TakeError::ResolvedBack,
            _ => unreachable!("an open replica returned {status}"),
        }
    }
}

impl fmt::Display for ReplicaError {
    fn fmt(&self, f: &mut fmt::Formatter<'_>) -> fmt::Result {
        match self {
            ReplicaError::Line(fault) => fault.fmt(f),
            ReplicaError::NoFeed => f.write_str("the command opens no feed"),
            ReplicaError::NoMemory => f.write_str("no memory for the replica"),
            ReplicaError::Processor => OpenError::Processor.fmt(f),
        }
    }
}

impl fmt::Display for BeginError {
    fn fmt(&self, f: &mut fmt::Formatter<'_>) -> fmt::Result {
        match self {
            BeginError::Replica(error) => error.fmt(f),
            BeginError::NoRows => f.write_str("a key or a value has too few or too many bytes"),
            BeginError::NotAfter => f.write_str("the keys don't rise"),
            BeginError::OutsideSpan => f.write_str("a key lies outside the span"),
        }
    }
}

impl fmt::Display for TakeError {
    fn fmt(&self, f: &mut fmt::Formatter<'_>) -> fmt::Result {
        f.write_str(match self {
            TakeError::NoMessage => "no feed tells such a message",
            TakeError::NotAfter => "a row comes too early",
            TakeError::OutsideSpan => "a row lies outside the span",
            TakeError::ResolvedBack => "a resolved timestamp comes too early",
            TakeError::NoMemory => "no memory for the message",
        })
    }
}

impl Error for ReplicaError {}
impl Error for BeginError {}
impl Error for TakeError {}

impl NoMemory {
    pub(crate) fn of(status: u8) -> NoMemory {
        assert_eq!(status, 12, "an open database returned {status}");
        NoMemory
    }
}

impl VersionError {
    pub(crate) fn of(status: u8) -> VersionError {
        match status {
            4 => VersionError::KeyLength,
            12 => VersionError::NoMemory,
            24 => VersionError::BelowHorizon,
            _ => unreachable!("asking for versions returned {status}"),
        }
    }
}

impl DumpError {
    pub(crate) fn of(status: u8, length: usize) -> DumpError {
        match status {
            3 => DumpError::Timestamp,
            12 => DumpError::NoMemory,
            14 => DumpError::NoRoom(length),
            _ => unreachable!("asking for a dump returned {status}"),
        }
    }
}

impl From<DumpError> for std::io::Error {
    fn from(error: DumpError) -> std::io::Error {
        let kind = match error {
            DumpError::Timestamp | DumpError::NoRoom(_) => std::io::ErrorKind::InvalidInput,
            DumpError::NoMemory => std::io::ErrorKind::OutOfMemory,
        };
        std::io::Error::new(kind, error)
    }
}

impl OpenError {
    pub(crate) fn of(status: u8) -> OpenError {
        match status {
            12 => OpenError::NoMemory,
            15 => OpenError::RingRange,
            26 => OpenError::Processor,
            _ => unreachable!("opening a closed handle returned {status}"),
        }
    }
}

impl LineFault {
    fn of(status: u8) -> Option<LineFault> {
        Some(match status {
            1 => LineFault::WordCount,
            2 => LineFault::UnknownCommand,
            3 => LineFault::Number,
            4 => LineFault::KeyLength,
            5 => LineFault::ValueLength,
            6 => LineFault::Session,
            7 => LineFault::NoNewline,
            8 => LineFault::LineTooLong,
            9 => LineFault::BadByte,
            _ => return None,
        })
    }

    /// Its number, from 1 to 9.
    pub fn code(self) -> u8 {
        self as u8
    }

    /// Its name, as `mvfeed` writes it.
    pub fn name(self) -> &'static str {
        match self {
            LineFault::WordCount => "wordcount",
            LineFault::UnknownCommand => "unknowncommand",
            LineFault::Number => "number",
            LineFault::KeyLength => "keylength",
            LineFault::ValueLength => "valuelength",
            LineFault::Session => "session",
            LineFault::NoNewline => "nonewline",
            LineFault::LineTooLong => "linetoolong",
            LineFault::BadByte => "badbyte",
        }
    }
}

impl CallError {
    pub(crate) fn of(status: u8) -> CallError {
        match (status, LineFault::of(status)) {
            (_, Some(fault)) => CallError::Line(fault),
            (12, _) => CallError::NoMemory,
            (13, _) => CallError::Spent,
            (14, _) => CallError::Unwritten,
            (25, _) => CallError::AnswerTooLong,
            _ => unreachable!("a call on an open handle returned {status}"),
        }
    }
}

impl Refusal {
    /// The refusal of an answer's kind, with the number that it tells.
    pub(crate) fn of(kind: u8, number: u64) -> Option<Refusal> {
        Some(match kind {
            32 => Refusal::BelowClosed(number),
            33 => Refusal::TsUsed,
            34 => Refusal::TsRange,
            35 => Refusal::Blocked(number),
            36 => Refusal::NoTxn,
            37 => Refusal::NotOwner,
            38 => Refusal::Ended,
            39 => Refusal::TooLate,
            40 => Refusal::NotClosed(number),
            41 => Refusal::BelowHorizon(number),
            42 => Refusal::NoProtection,
            43 => Refusal::NoFeed,
            44 => Refusal::FeedCancelled,
            45 => Refusal::NoMemory,
            46 => Refusal::GapRange,
            _ => return None,
        })
    }
}

/// The answer's words, as the event's text has them.
impl fmt::Display for Refusal {
    fn fmt(&self, f: &mut fmt::Formatter<'_>) -> fmt::Result {
        let name = match *self {
            Refusal::BelowClosed(closed) => return write!(f, "belowclosed {closed}"),
            Refusal::Blocked(by) => return write!(f, "blocked {by}"),
            Refusal::NotClosed(closed) => return write!(f, "notclosed {closed}"),
            Refusal::BelowHorizon(horizon) => return write!(f, "belowhorizon {horizon}"),
            Refusal::TsUsed => "tsused",
            Refusal::TsRange => "tsrange",
            Refusal::NoTxn => "notxn",
            Refusal::NotOwner => "notowner",
            Refusal::Ended => "ended",
            Refusal::TooLate => "toolate",
            Refusal::NoProtection => "noprotection",
            Refusal::NoFeed => "nofeed",
            Refusal::FeedCancelled => "feedcancelled",
            Refusal::NoMemory => "nomemory",
            Refusal::GapRange => "gaprange",
        };
        f.write_str(name)
    }
}

impl fmt::Display for CommandError {
    fn fmt(&self, f: &mut fmt::Formatter<'_>) -> fmt::Result {
        match self {
            CommandError::Call(e) => e.fmt(f),
            CommandError::Refused(refusal) => write!(f, "the command is refused: {refusal}"),
        }
    }
}

impl fmt::Display for OpenError {
    fn fmt(&self, f: &mut fmt::Formatter<'_>) -> fmt::Result {
        f.write_str(match self {
            OpenError::RingRange => "the ring is not 1 to 65536",
            OpenError::NoMemory => "no memory for a database",
            OpenError::Processor => "the processor lacks what the library needs: x86-64-v2",
        })
    }
}

impl fmt::Display for LineFault {
    fn fmt(&self, f: &mut fmt::Formatter<'_>) -> fmt::Result {
        f.write_str(self.name())
    }
}

impl fmt::Display for CallError {
    fn fmt(&self, f: &mut fmt::Formatter<'_>) -> fmt::Result {
        match self {
            CallError::Line(fault) => write!(f, "the line is faulty: {fault}"),
            CallError::NoMemory => f.write_str("no memory for the line; no call was made"),
            CallError::Spent => f.write_str("no position is left; no call was made"),
            CallError::Unwritten => f.write_str("the call was made; no memory for its text"),
            CallError::AnswerTooLong => f.write_str("the answer would be too long; no call was made"),
        }
    }
}

impl fmt::Display for Unwritten {
    fn fmt(&self, f: &mut fmt::Formatter<'_>) -> fmt::Result {
        f.write_str("no memory for the text of the last event")
    }
}

impl fmt::Display for NoMemory {
    fn fmt(&self, f: &mut fmt::Formatter<'_>) -> fmt::Result {
        f.write_str("no memory for what was asked for")
    }
}

impl fmt::Display for VersionError {
    fn fmt(&self, f: &mut fmt::Formatter<'_>) -> fmt::Result {
        f.write_str(match self {
            VersionError::BelowHorizon => "the timestamp is below the horizon",
            VersionError::KeyLength => "a key has no byte, or more than 256",
            VersionError::NoMemory => "no memory for a key, or for the versions",
        })
    }
}

impl fmt::Display for DumpError {
    fn fmt(&self, f: &mut fmt::Formatter<'_>) -> fmt::Result {
        match self {
            DumpError::Timestamp => f.write_str("a dump can't close above 9223372036854775807"),
            DumpError::NoRoom(length) => write!(f, "the next lines of the dump have {length} bytes"),
            DumpError::NoMemory => f.write_str("no memory for the dump"),
        }
    }
}

impl fmt::Display for PollError {
    fn fmt(&self, f: &mut fmt::Formatter<'_>) -> fmt::Result {
        match self {
            PollError::Call(e) => e.fmt(f),
            PollError::Refused(answer) => write!(f, "the poll is refused: {answer}"),
        }
    }
}

impl Error for NoMemory {}
impl Error for OpenError {}
impl Error for LineFault {}
impl Error for Unwritten {}
impl Error for Refusal {}
impl Error for VersionError {}
impl Error for DumpError {}

impl Error for CallError {
    fn source(&self) -> Option<&(dyn Error + 'static)> {
        match self {
            CallError::Line(fault) => Some(fault),
            _ => None,
        }
    }
}

impl Error for PollError {
    fn source(&self) -> Option<&(dyn Error + 'static)> {
        match self {
            PollError::Call(e) => Some(e),
            PollError::Refused(_) => None,
        }
    }
}

impl Error for CommandError {
    fn source(&self) -> Option<&(dyn Error + 'static)> {
        match self {
            CommandError::Call(e) => Some(e),
            CommandError::Refused(refusal) => Some(refusal),
        }
    }
}

impl From<CallError> for CommandError {
    fn from(e: CallError) -> CommandError {
        CommandError::Call(e)
    }
}

impl From<Unwritten> for CommandError {
    fn from(e: Unwritten) -> CommandError {
        CommandError::Call(e.into())
    }
}

impl From<Unwritten> for CallError {
    fn from(_: Unwritten) -> CallError {
        CallError::Unwritten
    }
}

impl From<CallError> for PollError {
    fn from(e: CallError) -> PollError {
        PollError::Call(e)
    }
}

#[cfg(test)]
mod tests {
    use super::*;

    #[test]
    fn each_status_of_a_call_has_its_variant() {
        for status in 1..=9 {
            let CallError::Line(fault) = CallError::of(status) else { panic!("{status} is a line's fault") };
            assert_eq!(fault.code(), status);
        }
        assert_eq!([12, 13, 14].map(CallError::of), [CallError::NoMemory, CallError::Spent, CallError::Unwritten]);
        let opened = [OpenError::NoMemory, OpenError::RingRange, OpenError::Processor];
        assert_eq!([12, 15, 26].map(OpenError::of), opened);
    }
}
