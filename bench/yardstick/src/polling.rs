//! Openings, polls and cancellings.
use crate::bytes::Bytes;
use crate::calls::{Kind, Reply, Sink, Span, MAX};
use crate::engine::{Chain, Engine};
use crate::feeds::{Feed, Snapshot};
use std::cmp::Reverse;
use std::collections::{BTreeMap, VecDeque};
use std::ops::Bound::{Excluded, Included};

impl Engine {
    pub fn open(&mut self, seat: u8, span: Span, cursor: u64, kind: Kind) -> Result<Reply, Reply> {
        if kind.gap.is_some_and(|gap| gap == 0 || gap > MAX) {
            return Err(Reply::GapRange);
        }
        if cursor < self.horizon {
            return Err(Reply::BelowHorizon(self.horizon));
        }
        if kind.initial && cursor > self.closed {
            return Err(Reply::NotClosed(self.closed));
        }
        let id = self.feeds.len() as u32;
        self.feeds.push(Some(Box::new(Feed {
            owner: seat,
            lo: span.lo.into(),
            hi: span.hi.into(),
            cursor,
            gap: kind.gap.unwrap_or(1),
            snapshot: if kind.initial { Snapshot::New } else { Snapshot::Told },
            resolved: if kind.initial { cursor.saturating_sub(1) } else { cursor },
            floor: cursor,
            ring: VecDeque::new(),
            behind: cursor < self.closed,
            next: self.log_base + self.log.partition_point(|row| row.0 <= cursor) as u64,
        })));
        self.live_feeds += 1;
        self.floors.push(Reverse((cursor, id)));
        self.feed_index.open(id);
        Ok(Reply::Opened(u64::from(id) + 1))
    }

    pub fn cancel(&mut self, feed: u64) -> Result<Reply, Reply> {
        let at = self.place_of_feed(feed)?;
        self.feeds[at].take().ok_or(Reply::FeedCancelled)?;
        self.live_feeds -= 1;
        self.feed_index.cancel();
        self.feed_index.settle(&self.feeds);
        Ok(Reply::Cancelled)
    }

    fn place_of_feed(&self, feed: u64) -> Result<usize, Reply> {
        if feed == 0 || feed > self.feeds.len() as u64 {
            return Err(Reply::NoFeed);
        }
        Ok(feed as usize - 1)
    }

    pub fn poll(&mut self, seat: u8, feed: u64, max: u64, out: &mut impl Sink) -> Result<Reply, Reply> {
        let at = self.place_of_feed(feed)?;
        let feed = self.feeds[at].as_mut().ok_or(Reply::FeedCancelled)?;
        if feed.owner != seat {
            return Err(Reply::NotOwner);
        }
        let mut told = 0;
        if !matches!(feed.snapshot, Snapshot::Told) {
            told = tell_snapshot(feed, &self.index, &self.chains, max, out);
        }
        let log = Log { chains: &self.chains, rows: &self.log, base: self.log_base };
        told += if feed.behind { log.tell_behind(feed, max - told, out) } else { log.tell_ring(feed, max - told, out) };
        if told < max && self.closed > feed.resolved && self.closed - feed.resolved >= feed.gap {
            feed.resolved = self.closed;
            feed.floor = self.closed;
            out.resolved(self.closed);
            told += 1;
        }
        Ok(Reply::Messages(told))
    }
}

/// Tells rows of the snapshot at the cursor, from where the last poll ended: how many.
fn tell_snapshot(
    feed: &mut Feed,
    index: &BTreeMap<Bytes, u32>,
    chains: &[Chain],
    max: u64,
    out: &mut impl Sink,
) -> u64 {
    let mut told = 0;
    let mut last = None;
    let span = Span { lo: &feed.lo, hi: &feed.hi };
    if !span.is_empty() && max > 0 {
        let from = match &feed.snapshot {
            Snapshot::After(key) => Excluded(key.get()),
            _ => Included(span.lo),
        };
        for (_, id) in index.range::<[u8], _>((from, span.upper())) {
            let chain = &chains[*id as usize];
            let Some(value) = chain.versions.after(feed.cursor) else { continue };
            out.change(feed.cursor, chain.key.get(), Some(value));
            told += 1;
            if told == max {
                last = Some(chain.key.clone());
                break;
            }
        }
    }
    match last {
        Some(key) => feed.snapshot = Snapshot::After(key),
        None if max > 0 => feed.snapshot = Snapshot::Told,
        None => {}
    }
    told
}

/// The closed rows above the horizon, and the chains that they are of.
struct Log<'a> {
    chains: &'a [Chain],
    rows: &'a VecDeque<(u64, u32)>,
    base: u64,
}

impl Log<'_> {
    /// Tells a feed's rows out of the log, from where it fell behind: how many.
    fn tell_behind(&self, feed: &mut Feed, max: u64, out: &mut impl Sink) -> u64 {
        let mut told = 0;
        let mut at = feed.next.max(self.base);
        let end = self.base + self.rows.len() as u64;
        while told < max && at < end {
            let (ts, id) = self.rows[(at - self.base) as usize];
            at += 1;
            if ts > feed.cursor && feed.holds(self.chains[id as usize].key.get()) {
                self.tell(feed, ts, id, out);
                told += 1;
            }
        }
        feed.next = at;
        feed.behind = at < end;
        told
    }

    /// Tells the rows of a feed's ring: how many.
    fn tell_ring(&self, feed: &mut Feed, max: u64, out: &mut impl Sink) -> u64 {
        let mut told = 0;
        while told < max {
            let Some(seq) = feed.ring.pop_front() else { break };
            let (ts, id) = self.rows[(seq - self.base) as usize];
            self.tell(feed, ts, id, out);
            told += 1;
        }
        told
    }

    fn tell(&self, feed: &mut Feed, ts: u64, id: u32, out: &mut impl Sink) {
        let chain = &self.chains[id as usize];
        out.change(ts, chain.key.get(), chain.versions.after(ts));
        feed.floor = ts - 1;
    }
}
