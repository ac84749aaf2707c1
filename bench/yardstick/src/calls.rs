//! Commands, their replies, and who takes the bytes that a reply carries.
use std::ops::Bound::{self, Excluded, Included, Unbounded};

pub const MAX: u64 = i64::MAX as u64;

/// The keys from `lo` up to `hi`, without it. Either is empty for no bound.
#[derive(Clone, Copy)]
pub struct Span<'a> {
    pub lo: &'a [u8],
    pub hi: &'a [u8],
}

type Limits<'a> = (Bound<&'a [u8]>, Bound<&'a [u8]>);

impl<'a> Span<'a> {
    pub fn is_empty(&self) -> bool {
        !self.hi.is_empty() && self.hi <= self.lo
    }

    pub fn upper(&self) -> Bound<&'a [u8]> {
        if self.hi.is_empty() {
            Unbounded
        } else {
            Excluded(self.hi)
        }
    }

    pub fn range(&self) -> Limits<'a> {
        (Included(self.lo), self.upper())
    }
}

/// What an opening asks for beside its span and cursor: a snapshot first, and a least gap between resolved messages.
#[derive(Clone, Copy)]
pub struct Kind {
    pub initial: bool,
    pub gap: Option<u64>,
}

#[derive(Clone, Copy)]
pub enum Cmd<'a> {
    Begin(u64),
    Get(u64, &'a [u8]),
    Scan(u64, Span<'a>),
    Put(u64, &'a [u8], &'a [u8]),
    Del(u64, &'a [u8]),
    Commit(u64),
    Abort(u64),
    Close(u64),
    CloseHard(u64),
    ReadAt(u64, &'a [u8]),
    ScanAt(u64, Span<'a>),
    Protect(u64),
    Release(u64),
    Collect(u64),
    Open(Span<'a>, u64, Kind),
    Poll(u64, u64),
    Cancel(u64),
    Stats,
}

#[derive(Clone, Copy, PartialEq, Debug)]
pub enum Reply {
    Started,
    None,
    Value,
    Rows(u64),
    Written,
    Committed(u64),
    Aborted,
    Closed(u64, u64),
    Protected(u64),
    Released,
    Collected(u64, u64),
    Opened(u64),
    Messages(u64),
    Cancelled,
    Stats(u64, u64, u64, u64, u64),
    BelowClosed(u64),
    TsUsed,
    TsRange,
    GapRange,
    Blocked(u64),
    NoTxn,
    NotOwner,
    Ended,
    TooLate,
    NotClosed(u64),
    BelowHorizon(u64),
    NoProtection,
    NoFeed,
    FeedCancelled,
}

impl Reply {
    pub fn is_refusal(self) -> bool {
        use Reply::*;
        match self {
            BelowClosed(_) | Blocked(_) | NotClosed(_) | BelowHorizon(_) => true,
            TsUsed | TsRange | GapRange | NoTxn | NotOwner | Ended | TooLate => true,
            NoProtection | NoFeed | FeedCancelled => true,
            _ => false,
        }
    }
}

/// Takes what a reply carries beside its numbers, lent by the engine.
pub trait Sink {
    fn value(&mut self, value: &[u8]);
    fn row(&mut self, key: &[u8], value: &[u8]);
    fn change(&mut self, ts: u64, key: &[u8], after: Option<&[u8]>);
    fn resolved(&mut self, ts: u64);
}
