//! The last event as values, whoever made its call: no text is read.

use crate::database::Database;
use crate::error::Refusal;
use crate::raw::EventRecord;
use crate::typed::Closed;

/// The commands, in the order of the guide.
#[derive(Clone, Copy, Debug, PartialEq, Eq, Hash)]
#[allow(missing_docs)]
pub enum CommandKind {
    Begin,
    Get,
    Scan,
    Put,
    Del,
    Commit,
    Abort,
    Close,
    CloseHard,
    ReadAt,
    ScanAt,
    Protect,
    Release,
    Collect,
    Open,
    OpenInitial,
    OpenEvery,
    OpenInitialEvery,
    Poll,
    Cancel,
    Stats,
}

/// What an event was answered.
#[derive(Clone, Copy, Debug, PartialEq, Eq)]
pub enum Outcome {
    /// The transaction began.
    Started,
    /// The key has no value.
    None,
    /// The value that was read has so many bytes; [`Database::bytes`] has them.
    Value(u64),
    /// The write was taken.
    Written,
    /// So many keys were written.
    Committed(u64),
    /// The transaction is aborted.
    Aborted,
    /// What a closing did.
    Closed(Closed),
    /// So many messages were told; [`Database::bytes`] has them.
    Messages(u64),
    /// So many rows were found; the event's text has them.
    Rows(u64),
    /// The protection of this number stands.
    Protected(u64),
    /// The protection is gone.
    Released,
    /// The horizon, and how many versions were dropped.
    Collected {
        /// The horizon.
        horizon: u64,
        /// How many versions were dropped.
        removed: u64,
    },
    /// The feed of this number lives.
    Opened(u64),
    /// The feed is gone.
    Cancelled,
    /// What the database holds.
    Stats {
        /// How many versions aren't dead.
        versions: u64,
        /// How many transactions are undecided.
        undecided: u64,
    },
    /// The call was made, and this refusal is its answer.
    Refused(Refusal),
}

/// An event.
#[derive(Clone, Copy, Debug, PartialEq, Eq)]
pub struct Record {
    /// Its number among the events of the database.
    pub position: u64,
    /// The seat that gave the command.
    pub seat: u8,
    /// Which command it is.
    pub command: CommandKind,
    /// The number that the command names: a timestamp, or a protection's or a feed's number; of an open its cursor; of
    /// `stats` 0.
    pub at: u64,
    /// What it was answered.
    pub outcome: Outcome,
}

impl Database {
    /// The last event as values, or `None` where no call was made yet. It makes no call, and costs the same whatever the
    /// event is.
    ///
    /// ```
    /// use ripsawbean::{CommandKind, Database, Outcome, Record};
    ///
    /// let mut db = Database::open(1024).expect("it opens");
    /// assert_eq!(db.last(), None);
    /// db.call("3 begin 10\n").expect("a call");
    /// let begun = Record { position: 0, seat: 3, command: CommandKind::Begin, at: 10, outcome: Outcome::Started };
    /// assert_eq!(db.last(), Some(begun));
    /// ```
    pub fn last(&mut self) -> Option<Record> {
        Record::of(self.open.last())
    }
}

impl Record {
    fn of(told: EventRecord) -> Option<Record> {
        let command = *COMMANDS.get(usize::from(told.command).checked_sub(1)?)?;
        let outcome = outcome_of(told.kind, told.number, told.other)?;
        Some(Record { position: told.position, seat: told.seat, command, at: told.at, outcome })
    }
}

/// The commands by their numbers, from 1 on.
const COMMANDS: [CommandKind; 21] = [
    CommandKind::Begin,
    CommandKind::Get,
    CommandKind::Scan,
    CommandKind::Put,
    CommandKind::Del,
    CommandKind::Commit,
    CommandKind::Abort,
    CommandKind::Close,
    CommandKind::CloseHard,
    CommandKind::ReadAt,
    CommandKind::ScanAt,
    CommandKind::Protect,
    CommandKind::Release,
    CommandKind::Collect,
    CommandKind::Open,
    CommandKind::OpenInitial,
    CommandKind::OpenEvery,
    CommandKind::OpenInitialEvery,
    CommandKind::Poll,
    CommandKind::Cancel,
    CommandKind::Stats,
];

/// The outcome that an answer's numbers tell; none where they tell of no event.
fn outcome_of(kind: u8, number: u64, other: u64) -> Option<Outcome> {
    Some(match kind {
        1 => Outcome::Started,
        2 => Outcome::None,
        3 => Outcome::Value(number),
        4 => Outcome::Written,
        5 => Outcome::Committed(number),
        6 => Outcome::Aborted,
        7 => Outcome::Closed(Closed { at: number, aborted: other }),
        8 => Outcome::Messages(number),
        9 => Outcome::Rows(number),
        10 => Outcome::Protected(number),
        11 => Outcome::Released,
        12 => Outcome::Collected { horizon: number, removed: other },
        13 => Outcome::Opened(number),
        14 => Outcome::Cancelled,
        15 => Outcome::Stats { versions: number, undecided: other },
        _ => Outcome::Refused(Refusal::of(kind, number)?),
    })
}
