//! The journal: what has to survive any crash, as a script that the program runs.
//!
//! A crash with its recovery is, for everyone, a hard closing at the mark, and the end of all sessions, streams and
//! protections but those of names. So little has to be written, and nothing of the database changes:
//!
//! ```text
//! a commit of rows        begin T, what it wrote, commit T
//! a collection            close CLOSED, collect H, as they were answered
//! a name's place          what it has stored, its generation, and whether it is held
//! an Idempotency-Key      its request and its answer, in the batch of the commit that they are of
//! the mark                in the head of each batch: at or above each timestamp that began or was closed
//! ```
//!
//! And this is what waits until it is told, or called:
//!
//! ```text
//! a call above the mark                  is made once a higher mark is durable; it is drawn 65,536 ahead
//! started, written, aborted              are told at once: they promise nothing that the mark doesn't cover
//! value, none, rows, blocked             once no commit of these keys is on its way
//! all else                               once all before is durable
//! ```
//!
//! `core` hands each event to the `Journal`, which says by a `Ticket` what the answer rests on; whoever sends it waits
//! for that. A thread writes (`writer`). `frame` has the form of the bytes, `store` where they stand: in a `folder`, or in
//! `postgres`. `recovery` makes the database from them, and `checkpoint` makes older ones superfluous.
//!
//! 1. The database first, the journal second, the answer last: only the database knows whether a commit commits, and
//!    what is told before it is durable may be lost.
//! 2. Records are a beginning of the order of calls. Else a commit is there, and one that it has read isn't.
//! 3. Where a write fails the process ends, and tells nobody anything more: after a failed sync the next one may say
//!    that all is well.

mod answers;
pub mod checkpoint;
pub mod copy;
mod folder;
mod frame;
mod lease;
mod note;
mod postgres;
mod recorder;
pub mod recovery;
mod restore;
pub mod rules;
mod store;
mod writer;

pub use answers::{Answered, Form};
pub use note::Kept;
pub use recorder::Journal;
pub use restore::DUMP;
pub use writer::{Counts, Durable, Ticket};

use folder::Folder;
use frame::Damage;
use postgres::Postgres;
use recovery::{Error, Reading, Recovered};
use std::fmt;
use std::io;
use std::path::{Path, PathBuf};
use std::time::Duration;
use store::{Place, Store};

/// What the address of a PostgreSQL begins with.
const SCHEMES: [&str; 2] = ["postgresql://", "postgres://"];

/// What whoever starts the server asks for.
pub struct Asked {
    /// A folder, or the address of a PostgreSQL.
    pub place: PathBuf,
    pub restore: Option<PathBuf>,
    pub is_moved: bool,
    /// How long a server over PostgreSQL answers behind each of its writes.
    pub lease: Duration,
    /// How long answers to keys count.
    pub remember: Duration,
}

/// Opens a journal, and makes the database from it. A new one gets this identity.
pub fn open(asked: &Asked, identity: &str) -> Result<Recovered, Error> {
    let address = asked.place.to_str().filter(|word| SCHEMES.iter().any(|scheme| word.starts_with(scheme)));
    let mut reading = Reading::begin(asked.remember)?;
    let mut store: Box<dyn Store> = match address {
        Some(address) => Box::new(Postgres::take(address, asked.lease, &mut reading)?),
        None => Box::new(Folder::take(&asked.place)?),
    };
    if let Some(file) = &asked.restore {
        restore::restore(&mut *store, file, identity)?;
    }
    recovery::recover(store, reading, identity, asked.is_moved)
}

/// Why there is no journal to go on with, or why it can't be written.
#[derive(Debug)]
pub enum Failure {
    File(PathBuf, io::Error),
    /// A folder that would have to be made in one that isn't there.
    NoParent(PathBuf),
    Taken(PathBuf),
    /// No crash leaves such bytes.
    Damaged {
        name: String,
        damage: Damage,
    },
    /// A series that isn't the last one, or one whose batches are never torn, ends in a torn batch.
    Torn {
        name: String,
        at: u64,
    },
    Missing(String),
    /// It ends before its end.
    NotWhole {
        name: String,
        at: u64,
    },
    OtherDatabase {
        name: String,
        found: String,
        wanted: String,
    },
    /// The database doesn't answer a line as it was answered before.
    Replay {
        name: String,
        event: String,
    },
    NoMemory(String),
    /// It stands elsewhere than it did, so it may be a copy.
    Elsewhere {
        was: Place,
        is: Place,
    },
    /// A restored database begins in a place of its own.
    NotEmpty(String),
    /// A restore was cut between its checkpoint and its journal.
    HalfRestored(String),
    Postgres(String),
    /// What PostgreSQL will refuse again.
    Refused(String),
    /// Another server has taken over.
    Fenced,
}

impl Failure {
    pub fn file(path: &Path, error: io::Error) -> Failure {
        Failure::File(path.to_path_buf(), error)
    }

    fn replay(name: &str, event: &str) -> Failure {
        Failure::Replay { name: name.into(), event: event.trim_end().into() }
    }
}

impl fmt::Display for Failure {
    fn fmt(&self, f: &mut fmt::Formatter<'_>) -> fmt::Result {
        match self {
            Failure::File(path, error) => write!(f, "{}: {error}", path.display()),
            Failure::NoParent(path) => {
                let parent = path.parent().unwrap_or(path).display();
                write!(f, "{} can't be made, because {parent} isn't there: make that folder first", path.display())
            }
            Failure::Taken(path) => write!(f, "{} is another server's, which runs", path.display()),
            Failure::Damaged { name, damage } => write_damage(f, name, damage),
            Failure::Torn { name, at } => {
                write!(f, "{name} has a torn batch at byte {at}, where no crash leaves one. Nothing was changed")
            }
            Failure::Missing(name) => write!(f, "{name} isn't there, and what follows it is. Nothing was changed"),
            Failure::NotWhole { name, at } => {
                write!(f, "{name} isn't whole: what has to stand at byte {at} is missing. Nothing was changed")
            }
            Failure::OtherDatabase { name, found, wanted } => {
                write!(f, "{name} is of database {found}, and not of {wanted}. Nothing was changed")
            }
            Failure::Replay { name, event } => {
                write!(f, "{name} has a line that isn't answered as before: {event}. Nothing was changed")
            }
            Failure::NoMemory(name) => write!(f, "there is no memory for what {name} has"),
            Failure::Elsewhere { was, is } => write!(
                f,
                "this is the data of {was}, and it stands in {is}. A copy that is served is a second life of one \
                 database. If it was moved, and nobody serves the other one, say --moved. To begin from a backup, use \
                 GET /dump and --restore"
            ),
            Failure::Postgres(why) | Failure::Refused(why) => write!(f, "PostgreSQL: {why}"),
            Failure::Fenced => f.write_str("another server has taken over this journal"),
            Failure::NotEmpty(name) => write!(f, "{name} has a database already: --restore needs an empty place"),
            Failure::HalfRestored(name) => write!(
                f,
                "{name} is all that a --restore has left that was cut before its end: empty that place, and restore \
                 again. Nothing was changed"
            ),
        }
    }
}

fn write_damage(f: &mut fmt::Formatter<'_>, name: &str, damage: &Damage) -> fmt::Result {
    let Damage { at, length, why, behind } = damage;
    write!(
        f,
        "{name} is damaged at byte {at} of {length}: {why}. Nothing was changed. {behind} whole batches may stand behind \
         it. To cut it to {at} bytes would give up what stands from there on"
    )
}

impl std::error::Error for Failure {}

#[cfg(test)]
mod tests;
