//! What ends and what is forgotten: aborts, closings, protections and collections.
use crate::calls::Reply;
use crate::engine::Engine;
use crate::versions::Versions;
use std::cmp::Reverse;
use std::collections::binary_heap::PeekMut;

impl Engine {
    /// Gives up an empty chain; its mark goes into the gaps.
    fn give_up(&mut self, id: u32) {
        let chain = &mut self.chains[id as usize];
        let reader = if chain.reader <= self.closed { 0 } else { chain.reader };
        chain.versions = Versions::default();
        if reader > 0 || self.gaps.at(chain.key.get()) > self.closed {
            self.gaps.set_point(chain.key.get(), reader);
        }
        self.index.remove(&chain.key);
        self.free.push(id);
    }

    pub fn abort(&mut self, ts: u64) {
        let mut txn = self.live.remove(&ts).unwrap();
        for id in std::mem::take(&mut txn.keys) {
            let chain = &mut self.chains[id as usize];
            chain.versions.remove(ts);
            self.versions -= 1;
            if chain.versions.is_empty() {
                self.give_up(id);
            }
        }
        self.decided.insert(ts, txn);
    }

    pub fn close_hard(&mut self, to: u64) -> Reply {
        let mut aborted = 0;
        while let Some((&ts, _)) = self.live.first_key_value() {
            if ts > to {
                break;
            }
            self.abort(ts);
            aborted += 1;
        }
        self.close(to, aborted)
    }

    pub fn close(&mut self, to: u64, aborted: u64) -> Reply {
        let to = match self.live.first_key_value() {
            Some((oldest, _)) => to.min(oldest - 1),
            None => to,
        };
        if to > self.closed {
            self.closed = to;
            self.log_closed();
            self.gaps.forget_through(to);
        }
        Reply::Closed(self.closed, aborted)
    }

    /// Moves what was decided and is now closed into the log, and offers it to the feeds.
    fn log_closed(&mut self) {
        if self.live_feeds > 0 {
            self.feed_index.settle(&self.feeds);
        }
        while let Some(entry) = self.decided.first_entry() {
            if *entry.key() > self.closed {
                break;
            }
            let (ts, txn) = entry.remove_entry();
            for id in txn.keys {
                if self.live_feeds > 0 {
                    let seq = self.log_base + self.log.len() as u64;
                    let key = self.chains[id as usize].key.get();
                    self.feed_index.offer(&mut self.feeds, self.ring, key, ts, seq);
                }
                self.log.push_back((ts, id));
            }
        }
    }

    /// The least floor of a live feed. An entry of the heap is brought up to date where it comes to the top.
    fn least_floor(&mut self) -> Option<u64> {
        while let Some(mut top) = self.floors.peek_mut() {
            let Reverse((floor, id)) = *top;
            match &self.feeds[id as usize] {
                None => {
                    PeekMut::pop(top);
                }
                Some(feed) if feed.floor != floor => *top = Reverse((feed.floor, id)),
                Some(_) => return Some(floor),
            }
        }
        None
    }

    pub fn protect(&mut self, t: u64) -> Result<Reply, Reply> {
        if t < self.horizon {
            return Err(Reply::BelowHorizon(self.horizon));
        }
        self.last_protection += 1;
        self.protections.insert(self.last_protection, t);
        *self.protected.entry(t).or_insert(0) += 1;
        Ok(Reply::Protected(self.last_protection))
    }

    pub fn release(&mut self, id: u64) -> Result<Reply, Reply> {
        let t = self.protections.remove(&id).ok_or(Reply::NoProtection)?;
        let count = self.protected.get_mut(&t).unwrap();
        *count -= 1;
        if *count == 0 {
            self.protected.remove(&t);
        }
        Ok(Reply::Released)
    }

    /// How many versions it drops. The log names the keys that were written between the old horizon and the new one,
    /// and only those can have newly dead versions.
    pub fn collect(&mut self, to: u64) -> u64 {
        let mut horizon = to.min(self.closed);
        if let Some((t, _)) = self.protected.first_key_value() {
            horizon = horizon.min(*t);
        }
        if horizon > self.horizon {
            horizon = self.least_floor().map_or(horizon, |floor| floor.min(horizon));
        }
        if horizon <= self.horizon {
            return 0;
        }
        self.horizon = horizon;
        let mut removed = 0;
        while let Some(&(ts, id)) = self.log.front() {
            if ts > horizon {
                break;
            }
            self.log.pop_front();
            self.log_base += 1;
            removed += self.thin(id);
        }
        self.versions -= removed;
        removed
    }

    /// Drops what is dead of a key.
    fn thin(&mut self, id: u32) -> u64 {
        let horizon = self.horizon;
        let chain = &mut self.chains[id as usize];
        let Some(version) = chain.versions.at(horizon) else {
            return 0; // done by an earlier row of this key
        };
        let removed = if version.after.is_none() {
            chain.reader = chain.reader.max(version.reader);
            chain.versions.drop_below(horizon + 1)
        } else {
            let ts = version.ts;
            chain.versions.drop_below(ts)
        };
        if chain.versions.is_empty() {
            self.give_up(id);
        }
        removed
    }
}
