//! Feeds over one shared log of closed rows: each feed's ring holds row numbers.
use crate::bytes::Bytes;
use std::collections::VecDeque;

/// How far the snapshot of an initial feed was told.
pub enum Snapshot {
    New,
    After(Bytes),
    Told,
}

pub struct Feed {
    pub owner: u8,
    pub lo: Box<[u8]>,
    pub hi: Box<[u8]>, // empty: no bound
    pub cursor: u64,
    pub gap: u64, // the least between two resolved messages
    pub snapshot: Snapshot,
    pub resolved: u64, // the last resolved told, or before what the first has to lie above
    pub floor: u64,
    pub ring: VecDeque<u64>,
    pub behind: bool,
    pub next: u64, // while behind: the next row of the log to look at
}

impl Feed {
    #[inline]
    pub fn holds(&self, key: &[u8]) -> bool {
        *self.lo <= *key && (self.hi.is_empty() || *key < *self.hi)
    }
}

type Feeds = [Option<Box<Feed>>];

/// Which live feeds hold a key: feeds by their lower bounds as a tree without pointers, of which each node has the feed
/// with the greatest upper bound below it, and a short list of feeds opened since that was built.
#[derive(Default)]
pub struct Index {
    ids: Vec<u32>,
    greatest: Vec<u32>,
    recent: Vec<u32>,
    cancelled: usize,
}

impl Index {
    pub fn open(&mut self, id: u32) {
        self.recent.push(id);
    }

    pub fn cancel(&mut self) {
        self.cancelled += 1;
    }

    /// Builds the tree anew, once enough feeds were opened or cancelled.
    pub fn settle(&mut self, feeds: &Feeds) {
        if self.recent.len() <= 16 + self.ids.len() / 16 && 2 * self.cancelled <= self.ids.len() + 16 {
            return;
        }
        self.ids.append(&mut self.recent);
        self.ids.retain(|id| feeds[*id as usize].is_some());
        self.cancelled = 0;
        self.ids.sort_unstable_by(|a, b| live(feeds, *a).lo.cmp(&live(feeds, *b).lo));
        self.greatest = self.ids.clone();
        build(&self.ids, &mut self.greatest, feeds, 0, self.ids.len());
    }

    /// Offers a row of the log to each live feed that holds its key.
    pub fn offer(&self, feeds: &mut Feeds, ring: usize, key: &[u8], ts: u64, seq: u64) {
        for id in &self.recent {
            give(feeds, *id, ring, key, ts, seq);
        }
        let mut open = [(0usize, 0usize); 64];
        let mut count = 1;
        open[0] = (0, self.ids.len());
        while count > 0 {
            count -= 1;
            let (from, to) = open[count];
            if from >= to {
                continue;
            }
            let middle = (from + to) / 2;
            match &feeds[self.greatest[middle] as usize] {
                Some(feed) if !is_below(key, &feed.hi) => continue,
                _ => {}
            }
            open[count] = (from, middle);
            count += 1;
            match &feeds[self.ids[middle] as usize] {
                Some(feed) if *feed.lo > *key => continue,
                _ => {}
            }
            give(feeds, self.ids[middle], ring, key, ts, seq);
            open[count] = (middle + 1, to);
            count += 1;
        }
    }
}

fn live(feeds: &Feeds, id: u32) -> &Feed {
    feeds[id as usize].as_ref().expect("a live feed")
}

fn is_below(key: &[u8], hi: &[u8]) -> bool {
    hi.is_empty() || key < hi
}

/// Fills in the nodes of a part of the tree: the feed with its greatest upper bound.
fn build(ids: &[u32], greatest: &mut [u32], feeds: &Feeds, from: usize, to: usize) -> u32 {
    let middle = (from + to) / 2;
    let mut best = ids[middle];
    let hi = |id: u32| &live(feeds, id).hi;
    let mut take = |id: u32| {
        if !hi(best).is_empty() && (hi(id).is_empty() || hi(id) > hi(best)) {
            best = id;
        }
    };
    if from < middle {
        take(build(ids, greatest, feeds, from, middle));
    }
    if middle + 1 < to {
        take(build(ids, greatest, feeds, middle + 1, to));
    }
    greatest[middle] = best;
    best
}

/// Gives a row to a feed, if it holds the key, isn't behind and has a lower cursor. One with a full ring falls behind.
#[inline]
fn give(feeds: &mut Feeds, id: u32, ring: usize, key: &[u8], ts: u64, seq: u64) {
    let Some(feed) = &mut feeds[id as usize] else { return };
    if feed.behind || feed.cursor >= ts || !feed.holds(key) {
        return;
    }
    if feed.ring.len() == ring {
        feed.behind = true;
        feed.next = feed.ring[0];
        feed.ring = VecDeque::new();
    } else {
        feed.ring.push_back(seq);
    }
}
