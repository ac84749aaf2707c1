//! Keys at which a long walk may be cut, so that no part of it passes over many keys of which it tells nothing.
//!
//! A scan costs what it tells, and what it passes over: keys that are deleted, or that were first written above its
//! timestamp. Each of them was written above the horizon, or it would be collected. So one in `SHARE` of the keys that are
//! written is kept here until the horizon has passed it. The database alone knows what stands where: these are mere
//! places in its order. Pages go from one to the next; a scan that can't be cut is refused where it would pass over many.
//!
//! ```text
//! written above the horizon     a1 a2 a3 .. a9999          kept  a17 a3021 a8254
//! a page of a .. b              a .. a17, a17 .. a3021, ..  until there is enough, or the turn is over
//! scan . a b                    is refused, if `MOST` were 2 and all of them are deleted
//! ```
//!
//! 1. Which keys are kept no client knows.
//! 2. It takes a `SHARE`th of what the keys take that were written above the horizon.

use std::collections::hash_map::RandomState;
use std::collections::BTreeMap;
use std::hash::BuildHasher;
use std::ops::Bound;

/// Keys of which one is kept: some 0.1 milliseconds of a walk, and four times that where each is marked as read.
pub const SHARE: u64 = 1024;
/// Those that one call may pass over, which takes some 15 milliseconds.
pub const MOST: usize = 32;
/// Those that a short one may.
pub const FEW: usize = 4;

/// The last write of a key.
#[derive(Clone, Copy, Debug, PartialEq, Eq)]
pub struct Write {
    pub ts: u64,
    pub is_delete: bool,
}

#[derive(Debug)]
pub struct Cuts {
    share: u64,
    drawn: RandomState,
    kept: BTreeMap<Vec<u8>, Write>,
}

impl Default for Cuts {
    fn default() -> Cuts {
        Cuts::of(SHARE)
    }
}

impl Cuts {
    /// One in so many keys is kept.
    pub fn of(share: u64) -> Cuts {
        Cuts { share, drawn: RandomState::new(), kept: BTreeMap::new() }
    }

    /// A key was written, which is given by these bytes or by others that stand for them.
    pub fn note(&mut self, word: &[u8], write: Write, key: impl FnOnce() -> Option<Vec<u8>>) {
        if self.drawn.hash_one(word).is_multiple_of(self.share) {
            self.kept.extend(key().map(|key| (key, write)));
        }
    }

    /// The horizon stands here: what was written there is collected, or is told by each scan.
    pub fn forget_through(&mut self, horizon: u64) {
        self.kept.retain(|_, write| write.ts > horizon);
    }

    /// The first one above a key, and below a bound where there is one.
    pub fn first(&self, above: &[u8], hi: Option<&[u8]>) -> Option<&[u8]> {
        self.within(above, hi).next().map(|(key, _)| key)
    }

    /// Those of them all that a scan at a timestamp passes over, and tells nothing of.
    pub fn passed<'a, 'b>(
        &'a self,
        above: &[u8],
        hi: Option<&'b [u8]>,
        at: u64,
    ) -> impl Iterator<Item = &'a [u8]> + use<'a, 'b> {
        self.within(above, hi).filter(move |(_, write)| write.is_delete || write.ts > at).map(|(key, _)| key)
    }

    fn within<'a, 'b>(
        &'a self,
        above: &[u8],
        hi: Option<&'b [u8]>,
    ) -> impl Iterator<Item = (&'a [u8], &'a Write)> + use<'a, 'b> {
        let behind = (Bound::Excluded(above), Bound::Unbounded);
        let keys = self.kept.range::<[u8], _>(behind).map(|(key, write)| (key.as_slice(), write));
        keys.take_while(move |(key, _)| hi.is_none_or(|hi| *key < hi))
    }
}

#[cfg(test)]
mod tests {
    use super::*;

    fn all(cuts: &Cuts) -> Vec<&[u8]> {
        cuts.kept.keys().map(Vec::as_slice).collect()
    }

    fn noted(share: u64, count: u64) -> Cuts {
        let mut cuts = Cuts::of(share);
        for at in 0..count {
            let key = format!("k{at:06}").into_bytes();
            cuts.note(&key, Write { ts: at, is_delete: at % 2 == 0 }, || Some(key.clone()));
        }
        cuts
    }

    #[test]
    fn one_in_so_many_is_kept_until_the_horizon_has_passed_it() {
        let mut cuts = noted(100, 100_000);
        assert!((800..1200).contains(&cuts.kept.len()), "{}", cuts.kept.len());
        cuts.forget_through(49_999);
        assert!(all(&cuts).iter().all(|key| *key >= &b"k050000"[..]) && (350..650).contains(&cuts.kept.len()));
        cuts.forget_through(100_000);
        assert_eq!(cuts.kept.len(), 0);
    }

    #[test]
    fn the_first_behind_a_key_lies_within_the_span() {
        let cuts = noted(1, 5);
        assert_eq!(cuts.first(b"", None), Some(&b"k000000"[..]));
        assert_eq!(cuts.first(b"k000000", None), Some(&b"k000001"[..]));
        assert_eq!(cuts.first(b"k000000", Some(b"k000001\0")), Some(&b"k000001"[..]));
        assert_eq!(cuts.first(b"k000000", Some(b"k000001")), None);
        assert_eq!(cuts.first(b"k000004", None), None);
        assert_eq!(cuts.within(b"k000003", Some(b"k000001")).count(), 0);
    }

    #[test]
    fn what_is_deleted_or_later_is_passed_over() {
        let cuts = noted(1, 9);
        let passed = |at: u64| cuts.passed(b"k000001", Some(b"k000006"), at).collect::<Vec<_>>();
        assert_eq!(passed(9), [b"k000002", b"k000004"]);
        assert_eq!(passed(3), [b"k000002", b"k000004", b"k000005"]);
    }
}
