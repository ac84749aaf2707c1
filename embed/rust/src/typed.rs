//! Calls whose command is given in parts: no line is spelled, and no text is read.

use crate::command::Span;
use crate::database::{unwritten, Database};
use crate::error::{CallError, CommandError, Refusal, Unwritten};
use crate::event::{Message, Row};
use crate::raw::{Answer, Status};

/// How much of an answer finds room.
#[derive(Clone, Copy, Debug, PartialEq, Eq)]
pub struct Room {
    /// How many rows.
    pub rows: u64,
    /// How many bytes they have together: a row has those of its key and its value, and 17 more.
    pub bytes: u64,
}

/// What a closing did.
#[derive(Clone, Copy, Debug, PartialEq, Eq)]
pub struct Closed {
    /// The closed timestamp.
    pub at: u64,
    /// How many transactions it aborted.
    pub aborted: u64,
}

/// The same calls as by [`Database::make`], with what they find as values. Each makes one event, whose text
/// [`Database::text`] writes when it is asked for. After each error but [`CallError::Unwritten`] and
/// [`CommandError::Refused`] no call was made.
///
/// ```
/// use ripsawbean::{CommandError, Database, Message, Refusal, Row};
///
/// # fn main() -> Result<(), Box<dyn std::error::Error>> {
/// let mut db = Database::open(1024)?;
/// db.begin(0, 10)?;
/// db.put(0, 10, b"apple", b"3")?;
/// assert_eq!(db.get(0, 10, b"apple")?, Some(b"3".as_slice()));
/// assert_eq!(db.commit(0, 10)?, 1);
/// assert_eq!(db.commit(0, 10), Err(CommandError::Refused(Refusal::Ended)));
/// db.close_to(0, 10)?;
/// let feed = db.call("1 open - - 0\n")?.number().ok_or("it is opened")?;
/// let told: Vec<Message> = db.poll(1, feed, 100)?.collect();
/// let row = Row { key: b"apple".to_vec(), after: Some(b"3".to_vec()), updated: 10 };
/// assert_eq!(told, [Message::Row(row), Message::Resolved(10)]);
/// # Ok(())
/// # }
/// ```
impl Database {
    /// Begins the transaction of a timestamp.
    pub fn begin(&mut self, seat: u8, ts: u64) -> Result<(), CommandError> {
        answered(self.open.begin(seat, ts)).map(drop)
    }

    /// The value of a key as the transaction sees it.
    pub fn get(&mut self, seat: u8, ts: u64, key: &[u8]) -> Result<Option<&[u8]>, CommandError> {
        let read = self.open.get(seat, ts, key, &mut self.out);
        self.value(read)
    }

    /// Writes a value in a transaction.
    pub fn put(&mut self, seat: u8, ts: u64, key: &[u8], value: &[u8]) -> Result<(), CommandError> {
        answered(self.open.put(seat, ts, key, value)).map(drop)
    }

    /// Deletes a key in a transaction.
    pub fn delete(&mut self, seat: u8, ts: u64, key: &[u8]) -> Result<(), CommandError> {
        answered(self.open.delete(seat, ts, key)).map(drop)
    }

    /// Commits a transaction: how many keys it wrote.
    pub fn commit(&mut self, seat: u8, ts: u64) -> Result<u64, CommandError> {
        answered(self.open.commit(seat, ts)).map(|answer| answer.number)
    }

    /// Aborts a transaction.
    pub fn abort(&mut self, seat: u8, ts: u64) -> Result<(), CommandError> {
        answered(self.open.abort(seat, ts)).map(drop)
    }

    /// Moves the closed timestamp up, to just below the oldest undecided transaction at most: the command `close`.
    pub fn close_to(&mut self, seat: u8, to: u64) -> Result<Closed, CommandError> {
        answered(self.open.close_to(seat, to)).map(|answer| Closed { at: answer.number, aborted: answer.other })
    }

    /// The committed value of a key at a closed timestamp: the command `readat`.
    pub fn read_at(&mut self, seat: u8, t: u64, key: &[u8]) -> Result<Option<&[u8]>, CommandError> {
        let read = self.open.read_at(seat, t, key, &mut self.out);
        self.value(read)
    }

    /// The next messages of a feed, `max` at most. A message is told once: after [`CallError::Unwritten`] the same
    /// messages are those of [`Database::bytes`], and another poll would tell others.
    pub fn poll(&mut self, seat: u8, feed: u64, max: u64) -> Result<Told<'_>, CommandError> {
        let polled = self.open.poll(seat, feed, max, &mut self.out);
        let (_, length) = shown(polled)?;
        Ok(Told::of(self.shown_bytes(length)?))
    }

    /// The same, but that the messages have at most so many bytes together, or there is one: the first is told in any case.
    /// A message has the bytes of its key and its value, and 17 more, so one of the greatest size has 65809.
    pub fn poll_within(&mut self, seat: u8, feed: u64, max: u64, bytes: u64) -> Result<Told<'_>, CommandError> {
        let polled = self.open.poll_within(seat, feed, max, bytes, &mut self.out);
        let (_, length) = shown(polled)?;
        Ok(Told::of(self.shown_bytes(length)?))
    }

    /// Reads the keys of a span in a transaction, as far as their rows find room, and the first row in any case.
    /// [`Rows::end`] says where that ends: where it isn't the end of the span, the next scan goes on there. The event is the
    /// scan of so much of the span.
    ///
    /// ```
    /// use ripsawbean::{Database, Room, Span};
    ///
    /// # fn main() -> Result<(), Box<dyn std::error::Error>> {
    /// let mut db = Database::open(1024)?;
    /// db.begin(0, 10)?;
    /// for key in [b"a", b"b", b"c"] {
    ///     db.put(0, 10, key, b"1")?;
    /// }
    /// let rows = db.scan_within(0, 10, Span::ALL, Room { rows: 2, bytes: 1000 })?;
    /// assert_eq!(rows.end(), Some(b"c".as_slice()));
    /// assert_eq!(rows.collect::<Vec<_>>(), [(b"a".as_slice(), b"1".as_slice()), (b"b", b"1")]);
    /// let rows = db.scan_within(0, 10, Span { lo: b"c", hi: None }, Room { rows: 2, bytes: 1000 })?;
    /// assert_eq!(rows.end(), None);
    /// assert_eq!(rows.count(), 1);
    /// # Ok(())
    /// # }
    /// ```
    pub fn scan_within(&mut self, seat: u8, ts: u64, span: Span<'_>, room: Room) -> Result<Rows<'_>, CommandError> {
        let scanned = self.open.scan(seat, ts, some_bound(span), room, &mut self.out);
        let (_, length) = shown(scanned)?;
        Ok(Rows::of(self.shown_bytes(length)?))
    }

    /// The same at a closed timestamp, of what was committed there.
    pub fn scan_at_within(&mut self, seat: u8, t: u64, span: Span<'_>, room: Room) -> Result<Rows<'_>, CommandError> {
        let scanned = self.open.scan_at(seat, t, some_bound(span), room, &mut self.out);
        let (_, length) = shown(scanned)?;
        Ok(Rows::of(self.shown_bytes(length)?))
    }

    /// The bytes of the last event's answer once more, also where a line made its call: a value, messages, which
    /// [`Told::of`] reads, or rows, which [`Rows::of`] reads. Of another answer there are none. It makes no call.
    pub fn bytes(&mut self) -> Result<&[u8], Unwritten> {
        let length = self.open.bytes(&mut self.out).map_err(unwritten)?;
        self.shown_bytes(length)
    }

    fn value(&mut self, read: Result<(Answer, usize), Status>) -> Result<Option<&[u8]>, CommandError> {
        let (answer, length) = shown(read)?;
        if answer.kind != VALUE {
            return Ok(None);
        }
        Ok(Some(self.shown_bytes(length)?))
    }

    /// The bytes of this length that were shown, as far as there was room.
    fn shown_bytes(&mut self, mut length: usize) -> Result<&[u8], Unwritten> {
        while length > self.out.len() {
            // The call is made: with more room its bytes are asked for again.
            self.make_room(length)?;
            length = self.open.bytes(&mut self.out).map_err(unwritten)?;
        }
        Ok(&self.out[..length])
    }
}

/// The kind of an answer with a value.
const VALUE: u8 = 3;

fn answered(made: Result<Answer, Status>) -> Result<Answer, CommandError> {
    let answer = made.map_err(CallError::of)?;
    match Refusal::of(answer.kind, answer.number) {
        Some(refusal) => Err(CommandError::Refused(refusal)),
        None => Ok(answer),
    }
}

fn shown(made: Result<(Answer, usize), Status>) -> Result<(Answer, usize), CommandError> {
    let (answer, length) = made.map_err(CallError::of)?;
    Ok((answered(Ok(answer))?, length))
}

/// Messages, read from bytes one after another.
#[derive(Clone, Debug)]
pub struct Told<'a> {
    bytes: &'a [u8],
}

impl<'a> Told<'a> {
    /// The messages of bytes, as [`Database::bytes`] has them after a poll. They end where no whole message stands.
    pub fn of(bytes: &'a [u8]) -> Told<'a> {
        Told { bytes }
    }
}

impl Iterator for Told<'_> {
    type Item = Message;

    fn next(&mut self) -> Option<Message> {
        let (&kind, rest) = self.bytes.split_first()?;
        let (timestamp, rest) = rest.split_first_chunk()?;
        let (key_length, rest) = rest.split_first_chunk()?;
        let (value_length, rest) = rest.split_first_chunk()?;
        let updated = u64::from_le_bytes(*timestamp);
        let (key, rest) = rest.split_at_checked(size_of(*key_length)?)?;
        let (value, rest) = rest.split_at_checked(size_of(*value_length)?)?;
        let message = match kind {
            0 => Message::Resolved(updated),
            1 => Message::Row(Row { key: key.to_vec(), after: Some(value.to_vec()), updated }),
            2 => Message::Row(Row { key: key.to_vec(), after: None, updated }),
            _ => return None,
        };
        self.bytes = rest;
        Some(message)
    }
}

/// The rows of a scan, keys rising, read from bytes one after another: each key with its value.
#[derive(Clone, Debug)]
pub struct Rows<'a> {
    bytes: &'a [u8],
}

impl<'a> Rows<'a> {
    /// The rows of bytes, as [`Database::bytes`] has them after a scan. They end where no whole row stands.
    pub fn of(bytes: &'a [u8]) -> Rows<'a> {
        Rows { bytes }
    }

    /// Where the scan ended: the high bound of its event's span, if that has one. It goes over the rows that are left.
    pub fn end(&self) -> Option<&'a [u8]> {
        let mut left = self.bytes;
        while let Some(part) = Part::of(left) {
            if part.kind == END {
                return Some(part.key);
            }
            left = part.rest;
        }
        None
    }
}

impl<'a> Iterator for Rows<'a> {
    type Item = (&'a [u8], &'a [u8]);

    fn next(&mut self) -> Option<(&'a [u8], &'a [u8])> {
        let part = Part::of(self.bytes).filter(|part| part.kind == ROW)?;
        self.bytes = part.rest;
        Some((part.key, part.value))
    }
}

/// The kinds of a scan's messages: a row, and where the scan ended.
const ROW: u8 = 1;
const END: u8 = 3;

/// The first message of bytes, with what stands behind it.
struct Part<'a> {
    kind: u8,
    key: &'a [u8],
    value: &'a [u8],
    rest: &'a [u8],
}

impl<'a> Part<'a> {
    fn of(bytes: &'a [u8]) -> Option<Part<'a>> {
        let (&kind, rest) = bytes.split_first()?;
        let (_, rest) = rest.split_first_chunk::<8>()?;
        let (key_length, rest) = rest.split_first_chunk()?;
        let (value_length, rest) = rest.split_first_chunk()?;
        let (key, rest) = rest.split_at_checked(size_of(*key_length)?)?;
        let (value, rest) = rest.split_at_checked(size_of(*value_length)?)?;
        Some(Part { kind, key, value, rest })
    }
}

/// The same span, with bounds that have bytes: no key is below no bytes, as none is from a zero byte on and below it.
fn some_bound(span: Span<'_>) -> Span<'_> {
    match span.hi {
        Some(b"") => Span { lo: b"\0", hi: Some(b"\0") },
        _ => span,
    }
}

fn size_of(number: [u8; 4]) -> Option<usize> {
    usize::try_from(u32::from_le_bytes(number)).ok()
}

#[cfg(test)]
mod tests {
    use super::*;

    const BYTES: &[u8] =
        b"\x01\x08\x07\x06\x05\x04\x03\x02\x01\x02\0\0\0\x01\0\0\0kk1\x02\x14\0\0\0\0\0\0\0\x01\0\0\0\0\0\0\0k\
        \0\x1e\0\0\0\0\0\0\0\0\0\0\0\0\0\0\0";

    #[test]
    fn messages_of_bytes() {
        let row = |key: &[u8], after: Option<&[u8]>, updated| {
            Message::Row(Row { key: key.to_vec(), after: after.map(<[u8]>::to_vec), updated })
        };
        let all = [row(b"kk", Some(b"1"), 0x0102_0304_0506_0708), row(b"k", None, 20), Message::Resolved(30)];
        assert_eq!(Told::of(BYTES).collect::<Vec<_>>(), all);
        assert_eq!(BYTES.len(), 20 + 18 + 17);
        for length in 0..BYTES.len() {
            let whole = usize::from(length >= 20) + usize::from(length >= 38);
            assert_eq!(Told::of(&BYTES[..length]).collect::<Vec<_>>(), all[..whole]);
        }
        assert_eq!(Told::of(&[0xff; 60]).count(), 0);
    }
}
