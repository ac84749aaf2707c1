//! Where a journal stands: a few series of bytes that only grow. `folder` has each in a file, `postgres` in rows.
//!
//! ```text
//! journal-1  journal-2                     what is recorded, one series after another
//!            checkpoint-2                  the database as it was where journal-2 begins: what is older may go
//! ```
//!
//! 1. What `append` was given is durable once it returns. After an error nobody knows, so the process has to end: what
//!    is told behind it could be lost.
//! 2. A checkpoint is there as a whole, or not at all: what is older goes once it is there.
//! 3. One process writes at a time. Where another has taken its place, whatever this one asks for changes nothing: else
//!    it would cut or delete what the other one has acknowledged.

use super::Failure;
use std::fmt;
use std::io::Read;
use std::time::Duration;

#[derive(Clone, Copy, Debug, PartialEq, Eq, PartialOrd, Ord)]
pub enum Kind {
    Checkpoint,
    Journal,
}

impl Kind {
    pub fn name(self) -> &'static str {
        match self {
            Kind::Checkpoint => "checkpoint",
            Kind::Journal => "journal",
        }
    }
}

/// One series, by its number.
#[derive(Clone, Copy, Debug, PartialEq, Eq, PartialOrd, Ord)]
pub struct Series {
    pub kind: Kind,
    pub number: u64,
}

impl Series {
    pub fn journal(number: u64) -> Series {
        Series { kind: Kind::Journal, number }
    }

    pub fn checkpoint(number: u64) -> Series {
        Series { kind: Kind::Checkpoint, number }
    }
}

impl fmt::Display for Series {
    fn fmt(&self, f: &mut fmt::Formatter<'_>) -> fmt::Result {
        write!(f, "{}-{:06}", self.kind.name(), self.number)
    }
}

/// See the module.
pub trait Store: Send {
    /// All series, in no order.
    fn all(&mut self) -> Result<Vec<Series>, Failure>;

    /// The bytes of a series behind so many batches, or from its beginning. What is read while it is written may go.
    fn read(&mut self, series: Series, behind: u64) -> Result<Box<dyn Read + '_>, Failure>;

    /// How messages call a series.
    fn name(&self, series: Series) -> String;

    /// Gives up what stands behind so many bytes of a series, and makes the rest durable.
    fn cut(&mut self, series: Series, length: u64) -> Result<(), Failure>;

    /// Appends bytes in pieces to a series, which begins here where it isn't there.
    fn append(&mut self, series: Series, pieces: &[&[u8]]) -> Result<(), Failure>;

    /// A checkpoint that isn't there until it is finished.
    fn draft(&mut self, number: u64) -> Result<Box<dyn Draft>, Failure>;

    /// Drops all series below this number, and what drafts have left. Nobody writes one meanwhile.
    fn drop_below(&mut self, number: u64) -> Result<(), Failure>;

    /// The host and the place where it stands, as far as that can be known: a copy stands elsewhere.
    fn place(&self) -> Option<Place>;

    /// Writes that this process is there, where there is nothing else to write, or that it has written its last.
    fn beat(&mut self, _is_last: bool) -> Result<(), Failure> {
        Ok(())
    }

    /// How long a write that was confirmed lets this process answer, where another one may take its place.
    fn lease(&self) -> Option<Duration> {
        None
    }
}

/// A checkpoint while it is written. Dropped, it leaves nothing.
pub trait Draft: Send {
    fn write(&mut self, bytes: &[u8]) -> Result<(), Failure>;

    /// Makes it durable and puts it in its place. What is older than it goes.
    fn finish(self: Box<Self>) -> Result<(), Failure>;
}

/// Where a folder stands.
#[derive(Clone, Debug, PartialEq, Eq)]
pub struct Place {
    pub host: String,
    pub folder: String,
}

impl fmt::Display for Place {
    fn fmt(&self, f: &mut fmt::Formatter<'_>) -> fmt::Result {
        write!(f, "{} on host {}", self.folder, self.host)
    }
}
