//! Commands, displayed as the words of a line behind its seat.

use crate::word::Spelled;
use std::fmt;

/// The keys at or above `lo` and below `hi`, where there is one. A bound has at most 257 bytes.
#[derive(Clone, Copy, Debug, PartialEq, Eq)]
pub struct Span<'a> {
    /// The lower bound. No bytes bound nothing.
    pub lo: &'a [u8],
    /// The upper bound, if there is one.
    pub hi: Option<&'a [u8]>,
}

impl Span<'_> {
    /// All keys.
    pub const ALL: Span<'static> = Span { lo: b"", hi: None };
}

impl fmt::Display for Span<'_> {
    fn fmt(&self, f: &mut fmt::Formatter<'_>) -> fmt::Result {
        match self.hi {
            None => write!(f, "{} -", Spelled(self.lo)),
            // No key is below no bytes. As a bound `-` is none at all, so this span without a key is spelled as another
            // one.
            Some(b"") => f.write_str("%00 %00"),
            Some(hi) => write!(f, "{} {}", Spelled(self.lo), Spelled(hi)),
        }
    }
}

/// A command, as `docs/GUIDE.md` has it. Its display is its words: bytes are spelled, numbers are decimal.
#[derive(Clone, Copy, Debug, PartialEq, Eq)]
#[allow(missing_docs)]
pub enum Command<'a> {
    Begin { ts: u64 },
    Get { ts: u64, key: &'a [u8] },
    Scan { ts: u64, span: Span<'a> },
    Put { ts: u64, key: &'a [u8], value: &'a [u8] },
    Del { ts: u64, key: &'a [u8] },
    Commit { ts: u64 },
    Abort { ts: u64 },
    Close { to: u64 },
    CloseHard { to: u64 },
    ReadAt { t: u64, key: &'a [u8] },
    ScanAt { t: u64, span: Span<'a> },
    Protect { t: u64 },
    Release { id: u64 },
    Collect { to: u64 },
    Open { span: Span<'a>, cursor: u64 },
    OpenInitial { span: Span<'a>, cursor: u64 },
    OpenEvery { span: Span<'a>, cursor: u64, gap: u64 },
    OpenInitialEvery { span: Span<'a>, cursor: u64, gap: u64 },
    Poll { feed: u64, max: u64 },
    Cancel { feed: u64 },
    Stats,
}

impl fmt::Display for Command<'_> {
    fn fmt(&self, f: &mut fmt::Formatter<'_>) -> fmt::Result {
        match *self {
            Command::Begin { ts } => write!(f, "begin {ts}"),
            Command::Get { ts, key } => write!(f, "get {ts} {}", Spelled(key)),
            Command::Scan { ts, span } => write!(f, "scan {ts} {span}"),
            Command::Put { ts, key, value } => write!(f, "put {ts} {} {}", Spelled(key), Spelled(value)),
            Command::Del { ts, key } => write!(f, "del {ts} {}", Spelled(key)),
            Command::Commit { ts } => write!(f, "commit {ts}"),
            Command::Abort { ts } => write!(f, "abort {ts}"),
            Command::Close { to } => write!(f, "close {to}"),
            Command::CloseHard { to } => write!(f, "closehard {to}"),
            Command::ReadAt { t, key } => write!(f, "readat {t} {}", Spelled(key)),
            Command::ScanAt { t, span } => write!(f, "scanat {t} {span}"),
            Command::Protect { t } => write!(f, "protect {t}"),
            Command::Release { id } => write!(f, "release {id}"),
            Command::Collect { to } => write!(f, "collect {to}"),
            Command::Open { span, cursor } => write!(f, "open {span} {cursor}"),
            Command::OpenInitial { span, cursor } => write!(f, "openinitial {span} {cursor}"),
            Command::OpenEvery { span, cursor, gap } => write!(f, "openevery {span} {cursor} {gap}"),
            Command::OpenInitialEvery { span, cursor, gap } => write!(f, "openinitialevery {span} {cursor} {gap}"),
            Command::Poll { feed, max } => write!(f, "poll {feed} {max}"),
            Command::Cancel { feed } => write!(f, "cancel {feed}"),
            Command::Stats => f.write_str("stats"),
        }
    }
}

#[cfg(test)]
mod tests {
    use super::*;

    #[test]
    fn spans_are_written_by_their_bounds() {
        let span = |lo, hi| Span { lo, hi }.to_string();
        assert_eq!(Span::ALL.to_string(), "- -");
        assert_eq!(span(b"a", None), "a -");
        assert_eq!(span(b"", Some(b"-")), "- %2D");
        assert_eq!(span(b"a b", Some(b"a!")), "a%20b a!");
        assert_eq!(span(b"", Some(b"")), "%00 %00");
    }
}
