//! Batches: how a journal's bytes tell a whole one from a torn one, and both from damage.
//!
//! A batch is one line that changes nothing, and lines that the database takes. So a journal is a script, which
//! `mvfeed run --format 2` runs:
//!
//! ```text
//! 0 readat 18446744073709551615 batch/7/40/5d2f0c1a/66536/8be3a1f0
//! 0 begin 1000
//! 0 put 1000 apple 3
//! 0 commit 1000
//! ```
//!
//! A `readat` above closed is refused, whatever its key, so it carries words. Here they are the batch's number, the
//! bytes of its lines, their checksum, the mark, and the checksum of these words. Both checksums are CRC-32, which finds
//! each burst of fewer than 33 bits.
//!
//! 1. The checksum of the lines goes on from the batch before, and begins with the database's identity and the series.
//!    So a batch that stands in another place, or is missing, is found.
//! 2. A tail is torn if a crash in the middle of a write may leave it: a beginning of one batch, in which whole sectors
//!    may be zeros, with no whole head behind it. Everything else is damage, also in the last batch: taken for torn, what
//!    was acknowledged would go in silence.
//! 3. A client's words have no space and no newline, so no line of a client looks like a head.

use super::note::Note;
use super::store::Series;
use crate::lines::number_in;
use std::io::{self, Read, Write};

/// What carries words through a script.
pub const CARRIER: &[u8] = b"0 readat 18446744073709551615 ";
const BATCH: &[u8] = b"batch/";
/// A head is shorter than this.
const LONGEST_HEAD: usize = 160;
const SECTOR: u64 = 512;
const READ: usize = 1 << 16;

fn checksum(bytes: &[u8], before: u32) -> u32 {
    let mut hasher = crc32fast::Hasher::new_with_initial(before);
    hasher.update(bytes);
    hasher.finalize()
}

/// The checksum from which the next batch of a series goes on.
#[derive(Clone, Copy, Debug, PartialEq, Eq)]
pub struct Chain(u32);

impl Chain {
    /// That of a series' first batch.
    pub fn new(identity: &str, series: Series) -> Chain {
        Chain(checksum(format!("{identity}/{series}").as_bytes(), 0))
    }

    /// Puts a batch behind `out`.
    pub fn add(&mut self, number: u64, mark: u64, lines: &[u8], out: &mut Vec<u8>) {
        self.head(number, mark, &[lines], out);
        out.extend_from_slice(lines);
    }

    /// Puts the head of a batch behind `out`, whose lines come in pieces.
    pub fn head(&mut self, number: u64, mark: u64, lines: &[&[u8]], out: &mut Vec<u8>) {
        self.0 = lines.iter().fold(self.0, |before, piece| checksum(piece, before));
        let length: usize = lines.iter().map(|piece| piece.len()).sum();
        let words = format!("batch/{number}/{length}/{:08x}/{mark}", self.0);
        out.extend_from_slice(CARRIER);
        // Writing to a vector can't fail.
        let _ = writeln!(out, "{words}/{:08x}", checksum(words.as_bytes(), 0));
    }
}

/// What a batch's first line says.
#[derive(Clone, Copy, Debug, PartialEq, Eq)]
struct Head {
    number: u64,
    lines: usize,
    checksum: u32,
    mark: u64,
    /// Bytes of the head itself.
    length: usize,
}

impl Head {
    /// The head that these bytes begin with, where its own checksum is right.
    fn of(bytes: &[u8]) -> Option<Head> {
        let rest = bytes.strip_prefix(CARRIER)?;
        let end = rest.iter().take(LONGEST_HEAD).position(|&byte| byte == b'\n')?;
        let mut words = rest[..end].strip_prefix(BATCH)?.split(|&byte| byte == b'/');
        let number = number_in(words.next()?)?;
        let lines = usize::try_from(number_in(words.next()?)?).ok()?;
        let lines_checksum = hex(words.next()?)?;
        let mark = number_in(words.next()?)?;
        let own = words.next()?;
        let covered = &rest[..end - own.len() - 1];
        let is_right = words.next().is_none() && hex(own)? == checksum(covered, 0);
        is_right.then_some(Head { number, lines, checksum: lines_checksum, mark, length: CARRIER.len() + end + 1 })
    }
}

/// A checksum's word: eight digits.
fn hex(word: &[u8]) -> Option<u32> {
    let is_hex = |byte: &u8| matches!(byte, b'0'..=b'9' | b'a'..=b'f');
    let word =
        std::str::from_utf8(word).ok().filter(|word| word.len() == 8 && word.bytes().all(|byte| is_hex(&byte)))?;
    u32::from_str_radix(word, 16).ok()
}

/// A whole batch.
#[derive(Debug, PartialEq, Eq)]
pub struct Batch<'a> {
    pub number: u64,
    pub mark: u64,
    pub lines: &'a [u8],
}

/// Bytes that no crash leaves.
#[derive(Clone, Debug, PartialEq, Eq)]
pub struct Damage {
    /// Where the first batch begins that isn't right.
    pub at: u64,
    pub length: u64,
    pub why: String,
    /// Whole heads behind it.
    pub behind: usize,
}

#[derive(Debug)]
pub enum Fault {
    Read(io::Error),
    Damaged(Damage),
}

/// How far the batches of a series were read.
#[derive(Clone, Copy, Debug, Default, PartialEq, Eq)]
pub struct Reached {
    /// Where the whole batches end.
    pub bytes: u64,
    /// The number of the last one, and how the series goes on.
    pub last: Option<(u64, Chain)>,
}

/// The batches of a series, one after another.
pub struct Batches<R> {
    source: R,
    series: Series,
    buffer: Vec<u8>,
    /// Where the next batch begins in the buffer.
    start: usize,
    is_read: bool,
    reached: Reached,
    /// The same without the last batch.
    before: Reached,
    identity: String,
    torn: u64,
}

impl<R: Read> Batches<R> {
    pub fn new(source: R, series: Series) -> Batches<R> {
        Batches::behind(source, series, Reached::default(), "")
    }

    /// Those behind what was read before, which stand in the source alone.
    pub fn behind(source: R, series: Series, reached: Reached, identity: &str) -> Batches<R> {
        let (buffer, identity) = (Vec::new(), identity.to_string());
        Batches { source, series, buffer, start: 0, is_read: false, reached, before: reached, identity, torn: 0 }
    }

    /// The next whole batch, or `None` at the end, before which a torn one may stand.
    pub fn next(&mut self) -> Result<Option<Batch<'_>>, Fault> {
        self.fill(LONGEST_HEAD).map_err(Fault::Read)?;
        if self.rest().is_empty() {
            return Ok(None);
        }
        let Some(head) = Head::of(self.rest()) else { return self.end("no right head of a batch stands there".into()) };
        self.fill(head.length.saturating_add(head.lines)).map_err(Fault::Read)?;
        let Some(lines) = self.rest().get(head.length..head.length + head.lines) else {
            #[cfg(test)]
            if !super::rules::holds(super::rules::Rule::TornBatchesGo) {
                return Ok(Some(self.take_torn(head)));
            }
            return self.end(format!("the bytes end in batch {}", head.number));
        };
        let chain = match self.reached.last {
            Some((_, chain)) => chain,
            None => match Note::of(lines.split_inclusive(|&byte| byte == b'\n').next().unwrap_or(b"")) {
                Some(Note::Database(identity)) => {
                    let chain = Chain::new(&identity, self.series);
                    self.identity = identity;
                    chain
                }
                _ => return self.end("the first batch names no database".into()),
            },
        };
        let range = self.start + head.length..self.start + head.length + head.lines;
        let found = checksum(&self.buffer[range.clone()], chain.0);
        if found != head.checksum {
            let why = format!("the checksum of batch {} is {found:08x}, and not {:08x}", head.number, head.checksum);
            return self.end(why);
        }
        if let Some((number, _)) = self.reached.last.filter(|(number, _)| head.number != number + 1) {
            return self.end(format!("batch {} stands behind batch {number}", head.number));
        }
        self.before = self.reached;
        self.reached.last = Some((head.number, Chain(found)));
        self.reached.bytes += (head.length + head.lines) as u64;
        self.start = range.end;
        Ok(Some(Batch { number: head.number, mark: head.mark, lines: &self.buffer[range] }))
    }

    /// Where the whole batches end.
    pub fn whole(&self) -> u64 {
        self.reached.bytes
    }

    /// How far they were read, without the last one and with it.
    pub fn reached(&self) -> [Reached; 2] {
        [self.before, self.reached]
    }

    /// Bytes of the torn batch behind them.
    pub fn torn(&self) -> u64 {
        self.torn
    }

    /// The number of the last batch, and how the series goes on.
    pub fn last(&self) -> Option<(u64, Chain)> {
        self.reached.last
    }

    /// The identity that the first batch names.
    pub fn identity(&self) -> &str {
        &self.identity
    }

    /// The whole lines of a batch that isn't whole, as no server takes them.
    #[cfg(test)]
    fn take_torn(&mut self, head: Head) -> Batch<'_> {
        let begin = self.start + head.length;
        let lines = &self.buffer[begin..];
        let end = begin + lines.iter().rposition(|&byte| byte == b'\n').map_or(0, |at| at + 1);
        self.reached.bytes += (self.buffer.len() - self.start) as u64;
        self.start = self.buffer.len();
        Batch { number: head.number, mark: head.mark, lines: &self.buffer[begin..end] }
    }

    fn rest(&self) -> &[u8] {
        &self.buffer[self.start..]
    }

    /// Has so many bytes at hand, or all that there are.
    fn fill(&mut self, count: usize) -> io::Result<()> {
        if self.rest().len() < count && !self.is_read {
            self.buffer.drain(..self.start);
            self.start = 0;
            while self.buffer.len() < count && !self.is_read {
                let wanted = (count - self.buffer.len()).max(READ) as u64;
                self.is_read = self.source.by_ref().take(wanted).read_to_end(&mut self.buffer)? == 0;
            }
        }
        Ok(())
    }

    /// What stands here is no whole batch: the end, if it is torn.
    fn end(&mut self, why: String) -> Result<Option<Batch<'_>>, Fault> {
        self.fill(usize::MAX).map_err(Fault::Read)?;
        let rest = self.rest();
        let at = self.reached.bytes;
        if is_torn(rest, at) {
            self.torn = rest.len() as u64;
            self.start = self.buffer.len();
            return Ok(None);
        }
        let damage = Damage { at, length: at + rest.len() as u64, why, behind: heads_behind(rest) };
        Err(Fault::Damaged(damage))
    }
}

/// Whether a crash in the middle of a write may leave these bytes behind whole batches.
fn is_torn(tail: &[u8], at: u64) -> bool {
    if has_lost_sector(tail, at) {
        return heads_behind(tail) == 0;
    }
    match Head::of(tail) {
        Some(head) => tail.len() < head.length + head.lines,
        None => is_beginning_of_head(tail),
    }
}

/// Whether a whole sector has no byte but zeros. The first and the last need not be whole.
fn has_lost_sector(tail: &[u8], at: u64) -> bool {
    let first = (SECTOR - at % SECTOR) as usize;
    let (before, others) = tail.split_at(first.min(tail.len()));
    let is_zero = |part: &[u8]| !part.is_empty() && part.iter().all(|&byte| byte == 0);
    is_zero(before) || others.chunks(SECTOR as usize).any(is_zero)
}

/// Right heads behind the first byte.
fn heads_behind(tail: &[u8]) -> usize {
    let mut count = 0;
    let mut from = 1;
    while let Some(place) = tail.get(from..).and_then(|rest| position_of(rest, CARRIER)) {
        count += usize::from(Head::of(&tail[from + place..]).is_some());
        from += place + 1;
    }
    count
}

fn position_of(bytes: &[u8], wanted: &[u8]) -> Option<usize> {
    bytes.windows(wanted.len()).position(|window| window == wanted)
}

fn is_beginning_of_head(tail: &[u8]) -> bool {
    let Some(words) = tail.strip_prefix(CARRIER) else { return CARRIER.starts_with(tail) };
    let Some(words) = words.strip_prefix(BATCH) else { return BATCH.starts_with(words) };
    let words: Vec<&[u8]> = words.split(|&byte| byte == b'/').collect();
    let is_number = |word: &[u8]| word.iter().all(u8::is_ascii_digit) && word.len() <= 20;
    let is_checksum =
        |word: &[u8]| word.len() <= 8 && word.iter().all(|byte| matches!(byte, b'0'..=b'9' | b'a'..=b'f'));
    words.len() <= 5
        && words.iter().enumerate().all(|(place, word)| {
            let is_last = place + 1 == words.len();
            match place {
                2 | 4 => is_checksum(word) && (is_last || word.len() == 8),
                _ => is_number(word) && (is_last || !word.is_empty()),
            }
        })
}

#[cfg(test)]
mod tests;
