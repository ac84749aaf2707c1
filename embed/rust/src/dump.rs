//! A dump of the database: the script that rebuilds it, whole or piece by piece.

use crate::database::Database;
use crate::error::DumpError;
use std::io::{self, Write};

/// The bytes of the longest key.
const MAX_KEY: usize = 256;
/// How many bytes of a dump are written at once. Each line of a dump finds room in it.
const PIECE: usize = 1 << 18;

/// Where a dump has come to, as C has it.
#[repr(C)]
#[derive(Clone, Copy, Debug, Default, PartialEq, Eq)]
pub(crate) struct DumpPlaceRecord {
    pub(crate) timestamp: u64,
    pub(crate) key: usize,
    pub(crate) ended: u8,
}

/// Where a dump has come to.
#[derive(Clone, Debug, PartialEq, Eq)]
pub struct DumpPlace {
    record: DumpPlaceRecord,
    key: [u8; MAX_KEY],
}

impl DumpPlace {
    /// Where each dump begins.
    pub fn start() -> DumpPlace {
        DumpPlace { record: DumpPlaceRecord::default(), key: [0; MAX_KEY] }
    }

    /// Whether the dump has ended: no more is written of it.
    pub fn has_ended(&self) -> bool {
        self.record.ended != 0
    }

    /// Through where all rows were written, for certain: where a row was the last one, that is known once the next piece is
    /// asked for.
    pub fn through(&self) -> u64 {
        match self.record {
            DumpPlaceRecord { ended: 1.., .. } => u64::MAX,
            DumpPlaceRecord { key: 0, timestamp, .. } => timestamp,
            DumpPlaceRecord { timestamp, .. } => timestamp - 1,
        }
    }
}

impl Default for DumpPlace {
    fn default() -> DumpPlace {
        DumpPlace::start()
    }
}

/// The dump, in which no call is made.
///
/// ```
/// use ripsawbean::{Database, DumpPlace};
///
/// # fn main() -> Result<(), Box<dyn std::error::Error>> {
/// let mut db = Database::open(1024)?;
/// db.call("0 begin 10\n")?;
/// db.call("0 put 10 a 1\n")?;
/// db.call("0 commit 10\n")?;
/// let mut script = Vec::new();
/// db.dump(0, &mut script)?;
/// assert_eq!(script, b"0 begin 10\n0 put 10 a 1\n0 commit 10\n0 close 10\n0 collect 0\n");
/// // The same, piece by piece.
/// let (mut place, mut piece) = (DumpPlace::start(), [0; 30]);
/// let length = db.dump_piece(0, u64::MAX, &mut place, &mut piece)?;
/// assert_eq!(&piece[..length], b"0 begin 10\n0 put 10 a 1\n");
/// assert_eq!((place.through(), place.has_ended()), (9, false));
/// # Ok(())
/// # }
/// ```
impl Database {
    /// Writes the script that rebuilds the database: what `mvfeed dump` writes of its transcript. It closes at the
    /// greatest of `at`, closed and all that began.
    pub fn dump(&mut self, at: u64, output: &mut impl Write) -> io::Result<()> {
        let (mut place, mut piece) = (DumpPlace::start(), room()?);
        while !place.has_ended() {
            let length = self.dump_piece(at, u64::MAX, &mut place, &mut piece)?;
            output.write_all(&piece[..length])?;
        }
        Ok(())
    }

    /// Shows the next piece of a dump in `out`, as many lines as it has room for, of rows at or below `through`. It tells how
    /// many bytes they have: none where no more is left up to there. At an error the place is as it was.
    ///
    /// Calls may be made between two pieces. What is left at or below the closed timestamp stays as it was as long as no
    /// collection raises the horizon, which a protection of it prevents.
    pub fn dump_piece(
        &mut self,
        at: u64,
        through: u64,
        place: &mut DumpPlace,
        out: &mut [u8],
    ) -> Result<usize, DumpError> {
        let (length, status) = self.open.dump(at, through, &mut place.record, &mut place.key, out);
        match status {
            0 => Ok(length),
            _ => Err(DumpError::of(status, length)),
        }
    }
}

fn room() -> Result<Vec<u8>, DumpError> {
    let mut room = Vec::new();
    room.try_reserve_exact(PIECE).map_err(|_| DumpError::NoMemory)?;
    room.resize(PIECE, 0);
    Ok(room)
}
