//! Replicas: the consumer's half of a feed.

use crate::command::Command;
use crate::error::{BeginError, ReplicaError, TakeError};
use crate::event::Message;
use crate::raw::{OpenReplica, Status};
use crate::word::{unspell, Spelled};
use std::fmt::{self, Write};

/// The rows of one feed's span, kept by the feed's messages, which may come from another process.
pub struct Replica {
    open: OpenReplica,
    /// Room for what is shown. It grows to what the longest one needed.
    out: Vec<u8>,
}

impl Replica {
    /// The empty replica of the feed that a command opens. An initial feed tells it the rows at its cursor. A replica of
    /// any other is to [begin](Replica::begin) with them.
    pub fn open(command: Command<'_>) -> Result<Replica, ReplicaError> {
        let open = OpenReplica::new(format!("0 {command}\n").as_bytes()).map_err(ReplicaError::of)?;
        Ok(Replica { open, out: vec![0; 4096] })
    }

    /// The replica of the feed, no initial one, that a command opens, with rows to begin with, keys rising: what a scan
    /// found at the cursor, or the [rows](Replica::rows) of a replica that was told all through there. Some of another
    /// replica's rows may be of the next timestamp. So pass over a [ready](Replica::ready) and a
    /// [complete_at](Replica::complete_at) of the cursor itself.
    ///
    /// ```
    /// use ripsawbean::{Command, Replica, Span};
    /// let mut old = Replica::begin(Command::Open { span: Span::ALL, cursor: 10 }, [(b"apple", b"3")]).expect("it opens");
    /// let cursor = old.complete_through().expect("it was told all through 10");
    /// let rows = old.rows().expect("memory");
    /// let mut new = Replica::begin(Command::Open { span: Span::ALL, cursor }, rows).expect("it opens");
    /// assert_eq!(new.get(b"apple"), Ok(Some(b"3".as_slice())));
    /// ```
    pub fn begin<K: AsRef<[u8]>, V: AsRef<[u8]>>(
        command: Command<'_>,
        rows: impl IntoIterator<Item = (K, V)>,
    ) -> Result<Replica, BeginError> {
        let mut text = String::new();
        for (key, value) in rows {
            writeln!(text, "row {} {}", Spelled(key.as_ref()), Spelled(value.as_ref())).expect("a string takes all");
        }
        let line = format!("0 {command}\n");
        let open = OpenReplica::begin(line.as_bytes(), text.as_bytes()).map_err(BeginError::of)?;
        Ok(Replica { open, out: vec![0; 4096] })
    }

    /// Takes the next message. After an error nothing changed.
    pub fn take(&mut self, message: &Message) -> Result<(), TakeError> {
        self.open.take(format!("{message}\n").as_bytes()).map_err(TakeError::of)
    }

    /// Asked before the message is taken: the timestamp at which the rows are the map as they stand, where the message
    /// shows it. A replica that goes on with another's rows passes over the timestamp at which it begins.
    pub fn ready(&mut self, message: &Message) -> Result<Option<u64>, TakeError> {
        self.open.ready(format!("{message}\n").as_bytes()).map_err(TakeError::of)
    }

    /// The timestamp through which all was told: every later message is above it. None among the first rows of an
    /// initial feed.
    pub fn complete_through(&mut self) -> Option<u64> {
        self.open.complete().0
    }

    /// The timestamp at which the rows are the map, after a resolved message; the cursor at first, where the feed is not
    /// initial. None after a row.
    pub fn complete_at(&mut self) -> Option<u64> {
        self.open.complete().1
    }

    /// The value of a key.
    pub fn get(&mut self, key: &[u8]) -> Result<Option<&[u8]>, ReplicaError> {
        match self.shown(|open, out| open.get(key, out)) {
            Ok(length) => Ok(Some(&self.out[..length])),
            Err(23) => Ok(None),
            Err(status) => Err(ReplicaError::of(status)),
        }
    }

    /// All rows, keys rising.
    pub fn rows(&mut self) -> Result<Vec<(Vec<u8>, Vec<u8>)>, ReplicaError> {
        let length = self.shown(OpenReplica::rows).map_err(ReplicaError::of)?;
        let text = std::str::from_utf8(&self.out[..length]).expect("the library writes printable ASCII");
        Ok(text.lines().filter_map(row_of).collect())
    }

    /// Shows something, again where it found too little room: its length.
    fn shown(
        &mut self,
        mut show: impl FnMut(&mut OpenReplica, &mut [u8]) -> Result<usize, Status>,
    ) -> Result<usize, Status> {
        loop {
            let length = show(&mut self.open, &mut self.out)?;
            if length <= self.out.len() {
                return Ok(length);
            }
            let room = length.saturating_mul(2);
            self.out.try_reserve_exact(room - self.out.len()).map_err(|_| 12)?;
            self.out.resize(room, 0);
        }
    }
}

/// The key and the value of a row's line.
fn row_of(line: &str) -> Option<(Vec<u8>, Vec<u8>)> {
    let (key, value) = line.strip_prefix("row ")?.split_once(' ')?;
    Some((unspell(key)?, unspell(value)?))
}

impl fmt::Debug for Replica {
    fn fmt(&self, f: &mut fmt::Formatter<'_>) -> fmt::Result {
        f.debug_struct("Replica").finish_non_exhaustive()
    }
}
