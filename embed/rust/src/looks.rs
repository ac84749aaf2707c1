//! What a database tells without a call: how far it has come, the versions of keys, and what a seat holds. The last event
//! and its text stay as they are.

use crate::database::Database;
use crate::error::{NoMemory, VersionError};
use crate::raw::{self, HeldRecord};

/// How far a database, and one of its feeds, have come.
#[derive(Clone, Copy, Debug, PartialEq, Eq)]
pub struct Places {
    /// The closed timestamp.
    pub closed: u64,
    /// Below it nothing is read.
    pub horizon: u64,
    /// How far a collection can go now.
    pub limit: u64,
    /// The least undecided timestamp, where one is.
    pub oldest: Option<u64>,
    /// The greatest timestamp that began or was closed: each that is above it is free.
    pub reached: u64,
    /// How far the feed lets a collection go, where one is asked for and lives. It has told all through there, but for the
    /// first rows of an initial feed, whose floor is its cursor from the start.
    pub floor: Option<u64>,
}

/// One thing that is held until it ends.
#[derive(Clone, Copy, Debug, PartialEq, Eq)]
pub enum Held {
    /// An undecided transaction, which holds closed.
    Transaction {
        /// The timestamp at which it began.
        timestamp: u64,
        /// How many keys it wrote.
        keys: u64,
    },
    /// A feed that lives, which holds a collection.
    Feed {
        /// Its number.
        number: u64,
        /// How far it lets a collection go.
        floor: u64,
    },
    /// A protection, which holds a collection.
    Protection {
        /// Its number.
        number: u64,
        /// The timestamp that it protects.
        timestamp: u64,
    },
}

/// No feed has this number.
const NO_FEED: u64 = 0;

/// The version of the library: the three numbers of, say, 0.1.0.
pub fn version() -> (u8, u8, u8) {
    let [_, first, second, third] = raw::version().to_be_bytes();
    (first, second, third)
}

/// What is asked without a call.
///
/// ```
/// use ripsawbean::{Database, Held};
///
/// # fn main() -> Result<(), Box<dyn std::error::Error>> {
/// let mut db = Database::open(1024)?;
/// db.begin(0, 10)?;
/// db.put(0, 10, b"apple", b"3")?;
/// db.commit(0, 10)?;
/// db.begin(0, 20)?;
/// let places = db.places(None);
/// assert_eq!((places.closed, places.oldest, places.reached), (0, Some(20), 20));
/// let mut versions = Vec::new();
/// db.versions_at(20, &[b"apple", b"plum"], &mut versions)?;
/// assert_eq!(versions, [Some(10), None]);
/// assert_eq!(db.held_by(0)?, [Held::Transaction { timestamp: 20, keys: 0 }]);
/// # Ok(())
/// # }
/// ```
impl Database {
    /// How far the database has come, and the floor of the feed of this number. It takes no memory.
    pub fn places(&mut self, feed: Option<u64>) -> Places {
        let standing = self.open.places(feed.unwrap_or(NO_FEED));
        Places {
            closed: standing.closed,
            horizon: standing.horizon,
            limit: standing.limit,
            oldest: standing.oldest(),
            reached: standing.reached,
            floor: standing.floor(),
        }
    }

    /// The version of each key at a timestamp: the timestamp of the transaction whose value it has there, committed at or
    /// below it; none where it has no value. At an error `versions` has those of the keys before the one that failed.
    pub fn versions_at(
        &mut self,
        at: u64,
        keys: &[&[u8]],
        versions: &mut Vec<Option<u64>>,
    ) -> Result<(), VersionError> {
        versions.clear();
        let spelled = with_lengths(keys)?;
        let mut told = room_for(keys.len())?;
        versions.try_reserve(keys.len()).map_err(|_| VersionError::NoMemory)?;
        let (count, status) = self.open.versions_at(at, &spelled, &mut told);
        versions.extend(told[..count].iter().map(|&version| (version != 0).then_some(version)));
        match status {
            0 => Ok(()),
            _ => Err(VersionError::of(status)),
        }
    }

    /// What a seat holds: its undecided transactions, timestamps rising; its feeds, numbers rising; and all protections,
    /// which are of no seat, numbers rising.
    pub fn held_by(&mut self, seat: u8) -> Result<Vec<Held>, NoMemory> {
        let mut held = vec![HeldRecord::default(); 64];
        let mut count = self.open.held_by(seat, &mut held).map_err(NoMemory::of)?;
        while count > held.len() {
            held.try_reserve(count - held.len()).map_err(|_| NoMemory)?;
            held.resize(count, HeldRecord::default());
            count = self.open.held_by(seat, &mut held).map_err(NoMemory::of)?;
        }
        Ok(held[..count].iter().map(Held::of).collect())
    }
}

impl Held {
    fn of(record: &HeldRecord) -> Held {
        match *record {
            HeldRecord { number, at, kind: 1 } => Held::Transaction { timestamp: number, keys: at },
            HeldRecord { number, at, kind: 2 } => Held::Feed { number, floor: at },
            HeldRecord { number, at, kind: 3 } => Held::Protection { number, timestamp: at },
            HeldRecord { kind, .. } => unreachable!("the library told a kind {kind}"),
        }
    }
}

/// Room for so many versions.
fn room_for(count: usize) -> Result<Vec<u64>, VersionError> {
    let mut room = Vec::new();
    room.try_reserve_exact(count).map_err(|_| VersionError::NoMemory)?;
    room.resize(count, 0);
    Ok(room)
}

/// The keys one behind another, each behind its length. Behind a key whose length doesn't fit nothing is read.
fn with_lengths(keys: &[&[u8]]) -> Result<Vec<u8>, VersionError> {
    let mut bytes = Vec::new();
    for key in keys {
        bytes.try_reserve(2 + key.len()).map_err(|_| VersionError::NoMemory)?;
        let Ok(length) = u16::try_from(key.len()) else {
            bytes.extend([0, 0]);
            break;
        };
        bytes.extend(length.to_le_bytes());
        bytes.extend(*key);
    }
    Ok(bytes)
}
