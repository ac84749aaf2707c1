//! For keys that have no chain: the greatest reader that found them absent, as a step function
//! over the key space (an entry holds from its start up to the next entry's start).
use crate::bytes::Bytes;
use std::collections::BTreeMap;
use std::ops::Bound::{Excluded, Included, Unbounded};

#[derive(Default)]
pub struct Gaps {
    steps: BTreeMap<Bytes, u64>,
    drop: Vec<Bytes>,
    swept: usize,
}

impl Gaps {
    #[inline]
    pub fn at(&self, key: &[u8]) -> u64 {
        self.steps.range::<[u8], _>((Unbounded, Included(key))).next_back().map_or(0, |(_, reader)| *reader)
    }

    fn before(&self, key: &[u8]) -> u64 {
        self.steps.range::<[u8], _>((Unbounded, Excluded(key))).next_back().map_or(0, |(_, reader)| *reader)
    }

    /// Every key at or above `lo` and below `hi` (empty: no bound) gets at least `ts`.
    pub fn raise(&mut self, lo: &[u8], hi: &[u8], ts: u64) {
        self.change(lo, hi, |reader| reader.max(ts))
    }

    pub fn raise_point(&mut self, key: &[u8], ts: u64) {
        if self.at(key) < ts {
            let next = Bytes::successor(key);
            self.change(key, next.get(), |reader| reader.max(ts))
        }
    }

    pub fn set_point(&mut self, key: &[u8], ts: u64) {
        if self.at(key) != ts {
            let next = Bytes::successor(key);
            self.change(key, next.get(), |_| ts)
        }
    }

    fn change(&mut self, lo: &[u8], hi: &[u8], changed: impl Fn(u64) -> u64) {
        if !hi.is_empty() && hi <= lo {
            return;
        }
        let mut before = self.before(lo);
        let at_hi = if hi.is_empty() { None } else { Some(self.at(hi)) };
        let first = changed(self.at(lo));
        let mut from = Included(lo);
        if first != before {
            self.steps.insert(Bytes::new(lo), first);
            before = first;
            from = Excluded(lo);
        }
        let to = if hi.is_empty() { Unbounded } else { Excluded(hi) };
        for (start, reader) in self.steps.range_mut::<[u8], _>((from, to)) {
            *reader = changed(*reader);
            if *reader == before {
                self.drop.push(start.clone());
            }
            before = *reader;
        }
        match at_hi {
            Some(reader) if reader == before => {
                self.steps.remove(hi);
            }
            Some(reader) => {
                self.steps.insert(Bytes::new(hi), reader);
            }
            None => {}
        }
        for start in self.drop.drain(..) {
            self.steps.remove(&start);
        }
    }

    /// Readers at or below `closed` refuse no write any more. They are swept once the map has doubled.
    pub fn forget_through(&mut self, closed: u64) {
        if self.steps.len() < 2 * self.swept + 256 {
            return;
        }
        let mut before = 0;
        self.steps.retain(|_, reader| {
            if *reader <= closed {
                *reader = 0;
            }
            let stays = *reader != before;
            before = *reader;
            stays
        });
        self.swept = self.steps.len();
    }
}
