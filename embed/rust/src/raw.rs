//! The functions of `ripsawbean.h`, and open handles that make them safe. All unsafe code of the crate is here, that of
//! replicas in `replicas`.

mod replicas;

pub(crate) use replicas::OpenReplica;

use crate::command::Span;
use crate::dump::DumpPlaceRecord;
use crate::typed::Room;
use std::ptr;

/// A handle as C has it: all zero where it is closed.
#[repr(C)]
struct Handle {
    at: *mut u8,
    is_open: bool,
}

/// An answer in numbers as C has it.
#[repr(C)]
#[derive(Clone, Copy, Default)]
pub(crate) struct Answer {
    pub(crate) kind: u8,
    pub(crate) number: u64,
    pub(crate) other: u64,
}

/// An event in numbers, as C has it.
#[repr(C)]
#[derive(Clone, Copy, Default)]
pub(crate) struct EventRecord {
    pub(crate) position: u64,
    pub(crate) at: u64,
    pub(crate) number: u64,
    pub(crate) other: u64,
    pub(crate) seat: u8,
    pub(crate) command: u8,
    pub(crate) kind: u8,
}

/// What became of one line of several, as C has it.
#[repr(C)]
#[derive(Clone, Copy, Debug, Default)]
pub(crate) struct Done {
    pub(crate) length: usize,
    pub(crate) status: Status,
}

/// How far several lines were taken, as C has it.
#[repr(C)]
#[derive(Clone, Copy, Default)]
pub(crate) struct Taken {
    pub(crate) lines: usize,
    pub(crate) bytes: usize,
    pub(crate) length: usize,
}

/// How far a database and one of its feeds have come, as C has it.
#[repr(C)]
#[derive(Clone, Copy, Default)]
pub(crate) struct Standing {
    pub(crate) closed: u64,
    pub(crate) horizon: u64,
    pub(crate) limit: u64,
    oldest: u64,
    pub(crate) reached: u64,
    floor: u64,
}

impl Standing {
    pub(crate) fn oldest(&self) -> Option<u64> {
        time_of(self.oldest)
    }

    pub(crate) fn floor(&self) -> Option<u64> {
        time_of(self.floor)
    }
}

/// One thing that a seat holds, as C has it.
#[repr(C)]
#[derive(Clone, Copy, Default)]
pub(crate) struct HeldRecord {
    pub(crate) number: u64,
    pub(crate) at: u64,
    pub(crate) kind: u8,
}

extern "C" {
    fn ripsawbean_version() -> u32;
    fn ripsawbean_open(db: *mut Handle, ring: u32) -> u8;
    fn ripsawbean_call(
        db: *mut Handle,
        line: *const u8,
        line_length: usize,
        out: *mut u8,
        room: usize,
        length: *mut usize,
    ) -> u8;
    fn ripsawbean_text(db: *mut Handle, out: *mut u8, room: usize, length: *mut usize) -> u8;
    fn ripsawbean_state(db: *mut Handle, out: *mut u8, room: usize, length: *mut usize) -> u8;
    fn ripsawbean_last(db: *mut Handle, record: *mut EventRecord) -> u8;
    fn ripsawbean_close(db: *mut Handle);
    fn ripsawbean_begin(db: *mut Handle, seat: u8, timestamp: u64, answer: *mut Answer) -> u8;
    fn ripsawbean_get(
        db: *mut Handle,
        seat: u8,
        timestamp: u64,
        key: *const u8,
        key_length: usize,
        out: *mut u8,
        room: usize,
        length: *mut usize,
        answer: *mut Answer,
    ) -> u8;
    fn ripsawbean_put(
        db: *mut Handle,
        seat: u8,
        timestamp: u64,
        key: *const u8,
        key_length: usize,
        value: *const u8,
        value_length: usize,
        answer: *mut Answer,
    ) -> u8;
    fn ripsawbean_delete(
        db: *mut Handle,
        seat: u8,
        timestamp: u64,
        key: *const u8,
        key_length: usize,
        answer: *mut Answer,
    ) -> u8;
    fn ripsawbean_commit(db: *mut Handle, seat: u8, timestamp: u64, answer: *mut Answer) -> u8;
    fn ripsawbean_abort(db: *mut Handle, seat: u8, timestamp: u64, answer: *mut Answer) -> u8;
    fn ripsawbean_close_to(db: *mut Handle, seat: u8, timestamp: u64, answer: *mut Answer) -> u8;
    fn ripsawbean_read_at(
        db: *mut Handle,
        seat: u8,
        timestamp: u64,
        key: *const u8,
        key_length: usize,
        out: *mut u8,
        room: usize,
        length: *mut usize,
        answer: *mut Answer,
    ) -> u8;
    fn ripsawbean_poll(
        db: *mut Handle,
        seat: u8,
        feed: u64,
        most: u64,
        out: *mut u8,
        room: usize,
        length: *mut usize,
        answer: *mut Answer,
    ) -> u8;
    fn ripsawbean_scan(
        db: *mut Handle,
        seat: u8,
        timestamp: u64,
        low: *const u8,
        low_length: usize,
        high: *const u8,
        high_length: usize,
        has_high: u8,
        rows: u64,
        bytes: u64,
        out: *mut u8,
        room: usize,
        length: *mut usize,
        answer: *mut Answer,
    ) -> u8;
    fn ripsawbean_scan_at(
        db: *mut Handle,
        seat: u8,
        timestamp: u64,
        low: *const u8,
        low_length: usize,
        high: *const u8,
        high_length: usize,
        has_high: u8,
        rows: u64,
        bytes: u64,
        out: *mut u8,
        room: usize,
        length: *mut usize,
        answer: *mut Answer,
    ) -> u8;
    fn ripsawbean_poll_within(
        db: *mut Handle,
        seat: u8,
        feed: u64,
        most: u64,
        bytes: u64,
        out: *mut u8,
        room: usize,
        length: *mut usize,
        answer: *mut Answer,
    ) -> u8;
    fn ripsawbean_bytes(db: *mut Handle, out: *mut u8, room: usize, length: *mut usize) -> u8;
    fn ripsawbean_calls(
        db: *mut Handle,
        lines: *const u8,
        lines_length: usize,
        out: *mut u8,
        room: usize,
        notes: *mut Done,
        notes_length: usize,
        most: u64,
        taken: *mut Taken,
    ) -> u8;
    fn ripsawbean_places(db: *mut Handle, feed: u64, standing: *mut Standing) -> u8;
    fn ripsawbean_versions_at(
        db: *mut Handle,
        timestamp: u64,
        keys: *const u8,
        keys_length: usize,
        versions: *mut u64,
        room: usize,
        count: *mut usize,
    ) -> u8;
    fn ripsawbean_held_by(db: *mut Handle, seat: u8, out: *mut HeldRecord, room: usize, count: *mut usize) -> u8;
    fn ripsawbean_dump(
        db: *mut Handle,
        at: u64,
        through: u64,
        place: *mut DumpPlaceRecord,
        key: *mut u8,
        key_room: usize,
        out: *mut u8,
        room: usize,
        length: *mut usize,
    ) -> u8;
}

/// The status of a function that didn't return 0.
pub(crate) type Status = u8;

/// The version of the library, a byte for each of its numbers.
pub(crate) fn version() -> u32 {
    // SAFETY: the function takes nothing, and reads nothing.
    unsafe { ripsawbean_version() }
}

/// An open handle.
pub(crate) struct Open {
    handle: Handle,
}

// SAFETY: the library proves `Send` of its handle, and asks for one call at a time, which `&mut self` gives. Rust's own
// rules order what two threads do with one value. (There is no `Sync`: nothing can be done with a shared handle.)
unsafe impl Send for Open {}

impl Open {
    pub(crate) fn new(ring: u32) -> Result<Open, Status> {
        let mut handle = Handle { at: ptr::null_mut(), is_open: false };
        // SAFETY: the handle is a closed one of this function's own. It moves once it is open, which a handle may.
        match unsafe { ripsawbean_open(&mut handle, ring) } {
            0 => Ok(Open { handle }),
            status => Err(status),
        }
    }

    /// Makes the call of a line, and shows the text in `out`: its whole length.
    pub(crate) fn call(&mut self, line: &[u8], out: &mut [u8]) -> Result<usize, Status> {
        let mut length = 0;
        // SAFETY: each pointer is that of a reference or of a slice with its length, so none is null, and the line is
        // only read. The handle, the buffer and the length are borrowed by `&mut`, so they share no byte with one
        // another or with the line.
        let status = unsafe {
            ripsawbean_call(&mut self.handle, line.as_ptr(), line.len(), out.as_mut_ptr(), out.len(), &mut length)
        };
        done(status, length)
    }

    /// Shows the text of the last event in `out`: its whole length.
    pub(crate) fn text(&mut self, out: &mut [u8]) -> Result<usize, Status> {
        let mut length = 0;
        // SAFETY: as for `call`, here and below.
        let status = unsafe { ripsawbean_text(&mut self.handle, out.as_mut_ptr(), out.len(), &mut length) };
        done(status, length)
    }

    /// Shows the text of the database's state in `out`: its whole length.
    pub(crate) fn state(&mut self, out: &mut [u8]) -> Result<usize, Status> {
        let mut length = 0;
        let status = unsafe { ripsawbean_state(&mut self.handle, out.as_mut_ptr(), out.len(), &mut length) };
        done(status, length)
    }

    /// The last event in numbers: all 0 where no call was made yet.
    pub(crate) fn last(&mut self) -> EventRecord {
        let mut record = EventRecord::default();
        let status = unsafe { ripsawbean_last(&mut self.handle, &mut record) };
        assert_eq!(status, 0, "an open database returned {status}");
        record
    }

    pub(crate) fn begin(&mut self, seat: u8, timestamp: u64) -> Result<Answer, Status> {
        let mut answer = Answer::default();
        done(unsafe { ripsawbean_begin(&mut self.handle, seat, timestamp, &mut answer) }, answer)
    }

    /// Reads a key in a transaction, and shows the value in `out`: its whole length.
    pub(crate) fn get(
        &mut self,
        seat: u8,
        timestamp: u64,
        key: &[u8],
        out: &mut [u8],
    ) -> Result<(Answer, usize), Status> {
        let (mut answer, mut length) = (Answer::default(), 0);
        let (handle, out_at, room) = (&mut self.handle, out.as_mut_ptr(), out.len());
        let status = unsafe {
            ripsawbean_get(handle, seat, timestamp, key.as_ptr(), key.len(), out_at, room, &mut length, &mut answer)
        };
        done(status, (answer, length))
    }

    pub(crate) fn put(&mut self, seat: u8, timestamp: u64, key: &[u8], value: &[u8]) -> Result<Answer, Status> {
        let mut answer = Answer::default();
        let (handle, value_at) = (&mut self.handle, value.as_ptr());
        let status = unsafe {
            ripsawbean_put(handle, seat, timestamp, key.as_ptr(), key.len(), value_at, value.len(), &mut answer)
        };
        done(status, answer)
    }

    pub(crate) fn delete(&mut self, seat: u8, timestamp: u64, key: &[u8]) -> Result<Answer, Status> {
        let mut answer = Answer::default();
        let status =
            unsafe { ripsawbean_delete(&mut self.handle, seat, timestamp, key.as_ptr(), key.len(), &mut answer) };
        done(status, answer)
    }

    pub(crate) fn commit(&mut self, seat: u8, timestamp: u64) -> Result<Answer, Status> {
        let mut answer = Answer::default();
        done(unsafe { ripsawbean_commit(&mut self.handle, seat, timestamp, &mut answer) }, answer)
    }

    pub(crate) fn abort(&mut self, seat: u8, timestamp: u64) -> Result<Answer, Status> {
        let mut answer = Answer::default();
        done(unsafe { ripsawbean_abort(&mut self.handle, seat, timestamp, &mut answer) }, answer)
    }

    pub(crate) fn close_to(&mut self, seat: u8, timestamp: u64) -> Result<Answer, Status> {
        let mut answer = Answer::default();
        done(unsafe { ripsawbean_close_to(&mut self.handle, seat, timestamp, &mut answer) }, answer)
    }

    /// Reads a key at a closed timestamp, and shows the value in `out`: its whole length.
    pub(crate) fn read_at(
        &mut self,
        seat: u8,
        timestamp: u64,
        key: &[u8],
        out: &mut [u8],
    ) -> Result<(Answer, usize), Status> {
        let (mut answer, mut length) = (Answer::default(), 0);
        let (handle, out_at, room) = (&mut self.handle, out.as_mut_ptr(), out.len());
        let status = unsafe {
            ripsawbean_read_at(handle, seat, timestamp, key.as_ptr(), key.len(), out_at, room, &mut length, &mut answer)
        };
        done(status, (answer, length))
    }

    /// Polls a feed, and shows the messages in `out`: their whole length.
    pub(crate) fn poll(&mut self, seat: u8, feed: u64, most: u64, out: &mut [u8]) -> Result<(Answer, usize), Status> {
        let (mut answer, mut length) = (Answer::default(), 0);
        let (handle, out_at, room) = (&mut self.handle, out.as_mut_ptr(), out.len());
        let status = unsafe { ripsawbean_poll(handle, seat, feed, most, out_at, room, &mut length, &mut answer) };
        done(status, (answer, length))
    }

    /// Scans a span in a transaction as far as its rows find room, and shows them in `out`: their whole length.
    pub(crate) fn scan(
        &mut self,
        seat: u8,
        timestamp: u64,
        span: Span<'_>,
        room: Room,
        out: &mut [u8],
    ) -> Result<(Answer, usize), Status> {
        let (mut answer, mut length) = (Answer::default(), 0);
        let (low, high) = (span.lo, span.hi.unwrap_or_default());
        let status = unsafe {
            ripsawbean_scan(
                &mut self.handle,
                seat,
                timestamp,
                low.as_ptr(),
                low.len(),
                high.as_ptr(),
                high.len(),
                u8::from(span.hi.is_some()),
                room.rows,
                room.bytes,
                out.as_mut_ptr(),
                out.len(),
                &mut length,
                &mut answer,
            )
        };
        done(status, (answer, length))
    }

    /// The same at a closed timestamp.
    pub(crate) fn scan_at(
        &mut self,
        seat: u8,
        timestamp: u64,
        span: Span<'_>,
        room: Room,
        out: &mut [u8],
    ) -> Result<(Answer, usize), Status> {
        let (mut answer, mut length) = (Answer::default(), 0);
        let (low, high) = (span.lo, span.hi.unwrap_or_default());
        let status = unsafe {
            ripsawbean_scan_at(
                &mut self.handle,
                seat,
                timestamp,
                low.as_ptr(),
                low.len(),
                high.as_ptr(),
                high.len(),
                u8::from(span.hi.is_some()),
                room.rows,
                room.bytes,
                out.as_mut_ptr(),
                out.len(),
                &mut length,
                &mut answer,
            )
        };
        done(status, (answer, length))
    }

    /// Polls a feed as far as its messages find room in `bytes`, and shows them in `out`: their whole length.
    pub(crate) fn poll_within(
        &mut self,
        seat: u8,
        feed: u64,
        most: u64,
        bytes: u64,
        out: &mut [u8],
    ) -> Result<(Answer, usize), Status> {
        let (mut answer, mut length) = (Answer::default(), 0);
        let (handle, out_at, room) = (&mut self.handle, out.as_mut_ptr(), out.len());
        let status =
            unsafe { ripsawbean_poll_within(handle, seat, feed, most, bytes, out_at, room, &mut length, &mut answer) };
        done(status, (answer, length))
    }

    /// Shows the bytes of the last event's answer in `out`: their whole length.
    pub(crate) fn bytes(&mut self, out: &mut [u8]) -> Result<usize, Status> {
        let mut length = 0;
        let status = unsafe { ripsawbean_bytes(&mut self.handle, out.as_mut_ptr(), out.len(), &mut length) };
        done(status, length)
    }

    /// Makes the calls of lines, and shows their texts in `out`: how far they were taken, and the status, 0 too.
    pub(crate) fn calls(&mut self, lines: &[u8], out: &mut [u8], notes: &mut [Done], most: u64) -> (Taken, Status) {
        let mut taken = Taken::default();
        let (handle, out_at, room) = (&mut self.handle, out.as_mut_ptr(), out.len());
        let (notes_at, places) = (notes.as_mut_ptr(), notes.len());
        let status = unsafe {
            ripsawbean_calls(handle, lines.as_ptr(), lines.len(), out_at, room, notes_at, places, most, &mut taken)
        };
        (taken, status)
    }

    /// How far the database and the feed of this number have come.
    pub(crate) fn places(&mut self, feed: u64) -> Standing {
        let mut standing = Standing::default();
        let status = unsafe { ripsawbean_places(&mut self.handle, feed, &mut standing) };
        assert_eq!(status, 0, "an open database returned {status}");
        standing
    }

    /// Tells the versions of keys, each behind its length: how many were told, and the status, 0 too.
    pub(crate) fn versions_at(&mut self, timestamp: u64, keys: &[u8], versions: &mut [u64]) -> (usize, Status) {
        let mut count = 0;
        let (handle, versions_at, room) = (&mut self.handle, versions.as_mut_ptr(), versions.len());
        let status = unsafe {
            ripsawbean_versions_at(handle, timestamp, keys.as_ptr(), keys.len(), versions_at, room, &mut count)
        };
        (count, status)
    }

    /// Shows what a seat holds in `out`: how many there are.
    pub(crate) fn held_by(&mut self, seat: u8, out: &mut [HeldRecord]) -> Result<usize, Status> {
        let mut count = 0;
        let status = unsafe { ripsawbean_held_by(&mut self.handle, seat, out.as_mut_ptr(), out.len(), &mut count) };
        done(status, count)
    }

    /// Shows a piece of a dump in `out`: how many bytes it has or wants, and the status, 0 too.
    pub(crate) fn dump(
        &mut self,
        at: u64,
        through: u64,
        place: &mut DumpPlaceRecord,
        key: &mut [u8],
        out: &mut [u8],
    ) -> (usize, Status) {
        let mut length = 0;
        let (db, key_at, key_room) = (&mut self.handle, key.as_mut_ptr(), key.len());
        let (out_at, room) = (out.as_mut_ptr(), out.len());
        let status = unsafe { ripsawbean_dump(db, at, through, place, key_at, key_room, out_at, room, &mut length) };
        (length, status)
    }
}

impl Drop for Open {
    fn drop(&mut self) {
        // SAFETY: the handle is this value's own, and not used again.
        unsafe { ripsawbean_close(&mut self.handle) }
    }
}

fn done<T>(status: Status, value: T) -> Result<T, Status> {
    if status == 0 {
        Ok(value)
    } else {
        Err(status)
    }
}

/// A timestamp, unless the number says that there is none.
fn time_of(number: u64) -> Option<u64> {
    (number != u64::MAX).then_some(number)
}
