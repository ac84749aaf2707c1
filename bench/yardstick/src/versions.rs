//! The versions of one key by rising timestamp: a list, and for a long history older lists before
//! it, so that a version in the middle of many moves only a few.
use crate::bytes::Bytes;

/// How many versions a list has at most.
const MOST: usize = 256;

pub struct Version {
    pub ts: u64,
    pub reader: u64, // greatest other reader of this version
    pub after: Option<Bytes>,
    pub decided: bool,
}

/// No list is empty but `new` of an empty whole.
#[derive(Default)]
pub struct Versions {
    old: Vec<Vec<Version>>,
    new: Vec<Version>,
}

fn upto(list: &[Version], t: u64) -> usize {
    match list.last() {
        Some(v) if v.ts > t => list.partition_point(|v| v.ts <= t),
        _ => list.len(),
    }
}

impl Versions {
    pub fn is_empty(&self) -> bool {
        self.new.is_empty()
    }

    /// The older list where `t` belongs, if it is none in `new`.
    #[inline]
    fn list(&self, t: u64) -> Option<usize> {
        match self.new.first() {
            Some(v) if v.ts > t && !self.old.is_empty() => {
                Some(self.old.partition_point(|l| l[0].ts <= t).saturating_sub(1))
            }
            _ => None,
        }
    }

    /// The newest at or below `t`.
    #[inline]
    pub fn at(&self, t: u64) -> Option<&Version> {
        let list = match self.list(t) {
            None => &self.new,
            Some(k) => &self.old[k],
        };
        list[..upto(list, t)].last()
    }

    /// The value at `t`, where there is one.
    #[inline]
    pub fn after(&self, t: u64) -> Option<&[u8]> {
        self.at(t)?.after.as_ref().map(Bytes::get)
    }

    #[inline]
    pub fn at_mut(&mut self, t: u64) -> Option<&mut Version> {
        let list = match self.list(t) {
            None => &mut self.new,
            Some(k) => &mut self.old[k],
        };
        let n = upto(list, t);
        list[..n].last_mut()
    }

    pub fn insert(&mut self, v: Version) {
        match self.list(v.ts) {
            None => {
                let i = upto(&self.new, v.ts);
                self.new.insert(i, v);
                if self.new.len() > MOST {
                    let rest = self.new.split_off(MOST / 2);
                    self.old.push(std::mem::replace(&mut self.new, rest));
                }
            }
            Some(k) => {
                let list = &mut self.old[k];
                let i = upto(list, v.ts);
                list.insert(i, v);
                if list.len() > MOST {
                    let rest = list.split_off(MOST / 2);
                    self.old.insert(k + 1, rest);
                }
            }
        }
    }

    /// Takes out the version of `ts`, which is there.
    pub fn remove(&mut self, ts: u64) {
        match self.list(ts) {
            None => {
                let i = upto(&self.new, ts);
                self.new.remove(i - 1);
                if self.new.is_empty() {
                    self.new = self.old.pop().unwrap_or_default();
                }
            }
            Some(k) => {
                let i = upto(&self.old[k], ts);
                self.old[k].remove(i - 1);
                if self.old[k].is_empty() {
                    self.old.remove(k);
                }
            }
        }
    }

    /// Drops those below `ts`; how many they were.
    pub fn drop_below(&mut self, ts: u64) -> u64 {
        let Some(t) = ts.checked_sub(1) else { return 0 };
        let mut n = 0;
        let whole = self.old.partition_point(|l| l[l.len() - 1].ts <= t);
        for l in self.old.drain(..whole) {
            n += l.len();
        }
        let first = self.old.first_mut().unwrap_or(&mut self.new);
        let i = upto(first, t);
        n += i;
        first.drain(..i);
        n as u64
    }
}
