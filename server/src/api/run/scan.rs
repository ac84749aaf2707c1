//! Scans of a plan, in parts.
//!
//! ```text
//! scan a z               a .. f,  f .. m,  m .. q       until there is no room for more, or the span is over
//! unchanged a z since 7  a .. f at 7 and now,  f .. n at 7 and now, ..       until they differ
//! ```
//!
//! 1. The parts of a scan tell what one call would tell: each begins where the one before it has ended. They conflict with
//!    the same, because each has read up to its end.
//! 2. A part has `PART` at most, and passes over `cuts::FEW` parts of spans.
//! 3. What is compared has the same bounds at both timestamps, and the same room: equal rows need the same.

use super::{Pace, Row, Running, Stop, Told};
use crate::api::bytes::length_of;
use crate::api::pages::{Page, Rows, MOST_BYTES, PART};
use crate::api::plan::{Bounds, SCANNED, SHORT, STEP};
use crate::core::Core;
use crate::cuts;
use crate::outcome::Outcome;
use ripsawbean::{Command, CommandError, Room, Span, MOST_ROWS};
use std::borrow::Cow;
use std::time::Instant;

/// What a row costs in an answer beside its key and value.
const ROW_BYTES: usize = 40;

/// A scan of which some is read.
pub struct Scan<'p> {
    rows: Vec<Row<'p>>,
    /// Where its next part begins.
    lo: Vec<u8>,
    left: Room,
}

/// Where what is behind a part begins.
enum Next {
    Part(Vec<u8>),
    /// There is no further part: as far as it may, all is read.
    All(Option<Vec<u8>>),
}

impl<'p> Running<'p> {
    /// The next part of a scan: what it tells, once it is whole.
    pub fn scan(&mut self, core: &mut Core, span: &Bounds<'_>, limit: usize) -> Result<Option<Told<'p>>, Stop> {
        let mut scan = self.scan_of(span, limit)?;
        let (rows, next) = self.part(core, Span { lo: &scan.lo, hi: span.hi.as_deref() }, &mut scan.left)?;
        let mut rows: Vec<Row<'p>> =
            rows.into_iter().map(|(key, value)| self.row(Cow::Owned(key), Some(value))).collect();
        let mut others: Vec<&mut Row<'p>> = rows.iter_mut().filter(|row| row.version.is_none()).collect();
        self.set_versions(core, &mut others)?;
        scan.rows.extend(rows);
        match next {
            Next::Part(next) => {
                self.scan = Some(Scan { lo: next, ..scan });
                Ok(None)
            }
            Next::All(next) => {
                self.check_read()?;
                self.count(core, scan.rows.iter().map(bytes_of).sum())?;
                Ok(Some(Told::Rows { rows: scan.rows, more: next.is_some() }))
            }
        }
    }

    fn scan_of(&mut self, span: &Bounds<'_>, limit: usize) -> Result<Scan<'p>, Stop> {
        match self.scan.take() {
            Some(scan) => Ok(scan),
            None => {
                self.weigh(STEP)?;
                let left = Room { rows: limit as u64, bytes: MOST_BYTES };
                Ok(Scan { rows: Vec::new(), lo: span.lo.to_vec(), left })
            }
        }
    }

    /// Compares the next part of a span with a snapshot, the values and not only the keys: whether all of it is unchanged,
    /// once that is known.
    pub fn compare(&mut self, core: &mut Core, span: &Bounds<'_>, since: u64) -> Result<Option<bool>, Stop> {
        let lo = self.compared.take().unwrap_or_else(|| span.lo.to_vec());
        let then = core.page_until(Span { lo: &lo, hi: span.hi.as_deref() }, since, PART, Instant::now())?;
        self.turn += STEP + weight_of(&then.rows);
        let hi = then.next.as_deref().or(span.hi.as_deref());
        // One row more would be a change.
        let room = Room { rows: then.rows.len() as u64 + 1, bytes: PART.bytes };
        let now = self.whole(core, Span { lo: &lo, hi }, room)?;
        self.check_read()?;
        if now.rows != then.rows || now.next.is_some() {
            return Ok(Some(false));
        }
        self.compared = then.next;
        Ok(self.compared.is_none().then_some(true))
    }

    /// All parts of a scan.
    fn whole(&mut self, core: &mut Core, span: Span<'_>, mut left: Room) -> Result<Page, Stop> {
        let (mut lo, mut rows) = (span.lo.to_vec(), Vec::new());
        loop {
            let (found, next) = self.part(core, Span { lo: &lo, hi: span.hi }, &mut left)?;
            rows.extend(found);
            match next {
                Next::Part(next) => lo = next,
                Next::All(next) => return Ok(Page { rows, next }),
            }
        }
    }

    /// The first rows of a span as the transaction sees them, so many of what is left to it as are read at once.
    fn part(&mut self, core: &mut Core, span: Span<'_>, left: &mut Room) -> Result<(Rows, Next), Stop> {
        let (room, far) = (self.room_in(*left), self.far_in(core, span));
        let near = Span { lo: span.lo, hi: far.as_deref().or(span.hi) };
        let command = Command::Scan { ts: self.timestamp, span: near };
        let page = core.scan(command, room).map_err(|error| match error {
            CommandError::Refused(refusal) => self.stop(core, "scan", Ok(Outcome::Refused(refusal))),
            CommandError::Call(error) => self.stop(core, "scan", Err(error)),
        })?;
        let passed = core.cuts.passed(span.lo, page.next.as_deref().or(near.hi), self.timestamp).count();
        self.passed += passed;
        self.turn += passed * (SHORT / cuts::FEW);
        self.read += page.rows.len();
        self.weigh(weight_of(&page.rows))?;
        let count = page.rows.len() as u64;
        let has_no_room = page.next.is_some() && count < room.rows;
        let is_whole = count == left.rows || has_no_room && room.bytes == left.bytes;
        left.rows -= count;
        left.bytes -= page.bytes();
        let next = match (page.next, far) {
            (next, far) if is_whole => Next::All(next.or(far)),
            (None, None) => Next::All(None),
            (next, _) if self.pace == Pace::Short && (has_no_room || next.is_none()) => return Err(Stop::Long),
            (Some(next), _) => Next::Part(next),
            // Behind the cut it would pass over more.
            (None, Some(_)) if self.passed >= cuts::MOST => return Err(Stop::TooMuch),
            (None, Some(far)) => {
                self.passed += 1;
                Next::Part(far)
            }
        };
        Ok((page.rows, next))
    }

    /// The room of a part, where so much is left.
    fn room_in(&self, left: Room) -> Room {
        let bytes = match self.pace {
            Pace::Short => SHORT.saturating_sub(self.weight) as u64,
            Pace::Turns | Pace::Whole => PART.bytes,
        };
        Room { rows: left.rows.min(PART.rows), bytes: left.bytes.min(bytes) }
    }

    /// The cut at which a part ends that would pass over more.
    fn far_in(&self, core: &Core, span: Span<'_>) -> Option<Vec<u8>> {
        let most = match self.pace {
            Pace::Short => cuts::FEW,
            Pace::Turns | Pace::Whole => cuts::MOST,
        };
        let few = most.saturating_sub(self.passed).min(cuts::FEW);
        core.cuts.passed(span.lo, span.hi, self.timestamp).nth(few).map(<[u8]>::to_vec)
    }

    fn check_read(&self) -> Result<(), Stop> {
        match self.read > MOST_ROWS {
            true => Err(Stop::TooMuch),
            false => Ok(()),
        }
    }
}

/// What rows weigh that are read.
fn weight_of(rows: &Rows) -> usize {
    rows.iter().map(|(key, value)| SCANNED + key.len() + value.len()).sum()
}

/// Bytes of a row that is told.
fn bytes_of(row: &Row<'_>) -> usize {
    ROW_BYTES + length_of(&row.key) + row.value.as_deref().map_or(0, length_of)
}
