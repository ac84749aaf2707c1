//! The database: chains of versions by key, the transactions, and reads and writes. A read mark stands on the version
//! that was read. One log of closed rows by timestamp and key serves every feed and the collector.
use crate::bytes::Bytes;
use crate::calls::{Cmd, Reply, Sink, Span, MAX};
use crate::feeds::{Feed, Index};
use crate::marks::Gaps;
use crate::versions::{Version, Versions};
use std::cmp::Reverse;
use std::collections::{BTreeMap, BinaryHeap, HashMap, VecDeque};

pub struct Chain {
    pub key: Bytes,
    pub reader: u64, // greatest reader that found nothing
    pub versions: Versions,
}

pub struct Txn {
    pub owner: u8,
    pub keys: Vec<u32>,
}

pub struct Engine {
    pub ring: usize,
    pub closed: u64,
    pub horizon: u64,
    pub index: BTreeMap<Bytes, u32>,
    pub chains: Vec<Chain>,
    pub free: Vec<u32>,
    pub gaps: Gaps,
    pub live: BTreeMap<u64, Txn>,    // undecided
    pub decided: BTreeMap<u64, Txn>, // above closed; the keys of committed ones, rising
    pub log: VecDeque<(u64, u32)>,   // closed rows above the horizon
    pub log_base: u64,
    pub feeds: Vec<Option<Box<Feed>>>,
    pub feed_index: Index,
    pub live_feeds: u64,
    pub floors: BinaryHeap<Reverse<(u64, u32)>>, // at most the floor of each live feed
    pub protections: HashMap<u64, u64>,
    pub protected: BTreeMap<u64, u64>,
    pub last_protection: u64,
    pub versions: u64,
    scratch: Vec<u32>,
}

impl Engine {
    pub fn new(ring: usize) -> Engine {
        Engine {
            ring,
            closed: 0,
            horizon: 0,
            index: BTreeMap::new(),
            chains: Vec::new(),
            free: Vec::new(),
            gaps: Gaps::default(),
            live: BTreeMap::new(),
            decided: BTreeMap::new(),
            log: VecDeque::new(),
            log_base: 0,
            feeds: Vec::new(),
            feed_index: Index::default(),
            live_feeds: 0,
            floors: BinaryHeap::new(),
            protections: HashMap::new(),
            protected: BTreeMap::new(),
            last_protection: 0,
            versions: 0,
            scratch: Vec::new(),
        }
    }

    pub fn step(&mut self, seat: u8, cmd: Cmd, out: &mut impl Sink) -> Reply {
        match self.answer(seat, cmd, out) {
            Ok(reply) | Err(reply) => reply,
        }
    }

    fn answer(&mut self, seat: u8, cmd: Cmd, out: &mut impl Sink) -> Result<Reply, Reply> {
        match cmd {
            Cmd::Get(ts, ..) | Cmd::Scan(ts, _) | Cmd::Put(ts, ..) | Cmd::Del(ts, _) => self.txn(seat, ts)?,
            Cmd::Commit(ts) | Cmd::Abort(ts) => self.txn(seat, ts)?,
            Cmd::ReadAt(t, _) | Cmd::ScanAt(t, _) => self.at(t)?,
            Cmd::Close(t) | Cmd::CloseHard(t) | Cmd::Collect(t) | Cmd::Protect(t) | Cmd::Open(_, t, _) if t > MAX => {
                return Err(Reply::TsRange);
            }
            _ => {}
        }
        Ok(match cmd {
            Cmd::Begin(ts) => self.begin(seat, ts)?,
            Cmd::Get(ts, key) => self.get(ts, key, out),
            Cmd::Scan(ts, span) => self.scan(ts, span, out),
            Cmd::Put(ts, key, value) => self.write(ts, key, Some(value)),
            Cmd::Del(ts, key) => self.write(ts, key, None),
            Cmd::Commit(ts) => self.commit(ts),
            Cmd::Abort(ts) => {
                self.abort(ts);
                Reply::Aborted
            }
            Cmd::Close(to) => self.close(to, 0),
            Cmd::CloseHard(to) => self.close_hard(to),
            Cmd::ReadAt(t, key) => self.read_at(t, key, out),
            Cmd::ScanAt(t, span) => self.scan_at(t, span, out),
            Cmd::Protect(t) => self.protect(t)?,
            Cmd::Release(id) => self.release(id)?,
            Cmd::Collect(to) => {
                let removed = self.collect(to);
                Reply::Collected(self.horizon, removed)
            }
            Cmd::Open(span, cursor, kind) => self.open(seat, span, cursor, kind)?,
            Cmd::Poll(feed, max) => self.poll(seat, feed, max, out)?,
            Cmd::Cancel(feed) => self.cancel(feed)?,
            Cmd::Stats => {
                let undecided = self.live.len() as u64;
                Reply::Stats(self.versions, undecided, self.live_feeds, self.closed, self.horizon)
            }
        })
    }

    /// The tests of a transaction's command.
    #[inline]
    fn txn(&self, seat: u8, ts: u64) -> Result<(), Reply> {
        if ts <= self.closed {
            return Err(Reply::Ended);
        }
        if let Some(txn) = self.live.get(&ts) {
            return if txn.owner == seat { Ok(()) } else { Err(Reply::NotOwner) };
        }
        Err(match self.decided.get(&ts) {
            None => Reply::NoTxn,
            Some(txn) if txn.owner != seat => Reply::NotOwner,
            Some(_) => Reply::Ended,
        })
    }

    /// The tests of a read of a snapshot.
    fn at(&self, t: u64) -> Result<(), Reply> {
        if t > self.closed {
            Err(Reply::NotClosed(self.closed))
        } else if t < self.horizon {
            Err(Reply::BelowHorizon(self.horizon))
        } else {
            Ok(())
        }
    }

    fn begin(&mut self, seat: u8, ts: u64) -> Result<Reply, Reply> {
        if ts == 0 || ts > MAX {
            return Err(Reply::TsRange);
        }
        if ts <= self.closed {
            return Err(Reply::BelowClosed(self.closed));
        }
        if self.live.contains_key(&ts) || self.decided.contains_key(&ts) {
            return Err(Reply::TsUsed);
        }
        self.live.insert(ts, Txn { owner: seat, keys: Vec::new() });
        Ok(Reply::Started)
    }

    fn commit(&mut self, ts: u64) -> Reply {
        let mut txn = self.live.remove(&ts).unwrap();
        let chains = &mut self.chains;
        if txn.keys.len() > 1 {
            txn.keys.sort_unstable_by(|a, b| chains[*a as usize].key.cmp(&chains[*b as usize].key));
        }
        for id in &txn.keys {
            if let Some(version) = chains[*id as usize].versions.at_mut(ts) {
                version.decided = true;
            }
        }
        let keys = txn.keys.len() as u64;
        self.decided.insert(ts, txn);
        Reply::Committed(keys)
    }

    fn get(&mut self, ts: u64, key: &[u8], out: &mut impl Sink) -> Reply {
        let Some(&id) = self.index.get(key) else {
            self.gaps.raise_point(key, ts);
            return Reply::None;
        };
        let chain = &mut self.chains[id as usize];
        let Some(version) = chain.versions.at_mut(ts) else {
            chain.reader = chain.reader.max(ts);
            return Reply::None;
        };
        if version.ts != ts {
            if !version.decided {
                return Reply::Blocked(version.ts);
            }
            version.reader = version.reader.max(ts);
        }
        match &version.after {
            None => Reply::None,
            Some(value) => {
                out.value(value.get());
                Reply::Value
            }
        }
    }

    fn read_at(&self, t: u64, key: &[u8], out: &mut impl Sink) -> Reply {
        let chain = self.index.get(key).map(|id| &self.chains[*id as usize]);
        match chain.and_then(|chain| chain.versions.after(t)) {
            None => Reply::None,
            Some(value) => {
                out.value(value);
                Reply::Value
            }
        }
    }

    fn scan_at(&self, t: u64, span: Span, out: &mut impl Sink) -> Reply {
        let mut rows = 0;
        if !span.is_empty() {
            for (_, &id) in self.index.range::<[u8], _>(span.range()) {
                let chain = &self.chains[id as usize];
                if let Some(value) = chain.versions.after(t) {
                    out.row(chain.key.get(), value);
                    rows += 1;
                }
            }
        }
        Reply::Rows(rows)
    }

    fn scan(&mut self, ts: u64, span: Span, out: &mut impl Sink) -> Reply {
        if span.is_empty() {
            return Reply::Rows(0);
        }
        self.scratch.clear();
        for (_, &id) in self.index.range::<[u8], _>(span.range()) {
            match self.chains[id as usize].versions.at(ts) {
                Some(version) if !version.decided && version.ts != ts => return Reply::Blocked(version.ts),
                _ => self.scratch.push(id),
            }
        }
        let mut rows = 0;
        for &id in &self.scratch {
            let chain = &mut self.chains[id as usize];
            let Some(version) = chain.versions.at_mut(ts) else {
                chain.reader = chain.reader.max(ts);
                continue;
            };
            if version.ts != ts {
                version.reader = version.reader.max(ts);
            }
            if let Some(value) = &version.after {
                out.row(chain.key.get(), value.get());
                rows += 1;
            }
        }
        self.gaps.raise(span.lo, span.hi, ts);
        Reply::Rows(rows)
    }

    fn write(&mut self, ts: u64, key: &[u8], after: Option<&[u8]>) -> Reply {
        let after = after.map(Bytes::new);
        let Some(&id) = self.index.get(key) else {
            return self.write_first(ts, key, after);
        };
        let chain = &mut self.chains[id as usize];
        let reader = match chain.versions.at_mut(ts) {
            None => chain.reader,
            Some(version) if version.ts == ts => {
                version.after = after;
                return Reply::Written;
            }
            Some(version) => version.reader,
        };
        if reader > ts {
            self.abort(ts);
            return Reply::TooLate;
        }
        chain.versions.insert(Version { ts, reader: 0, after, decided: false });
        self.wrote(ts, id)
    }

    /// A write of a key without a chain.
    fn write_first(&mut self, ts: u64, key: &[u8], after: Option<Bytes>) -> Reply {
        let reader = self.gaps.at(key);
        if reader > ts {
            self.abort(ts);
            return Reply::TooLate;
        }
        let mut chain = Chain { key: Bytes::new(key), reader, versions: Versions::default() };
        chain.versions.insert(Version { ts, reader: 0, after, decided: false });
        let id = match self.free.pop() {
            Some(id) => {
                self.chains[id as usize] = chain;
                id
            }
            None => {
                self.chains.push(chain);
                self.chains.len() as u32 - 1
            }
        };
        self.index.insert(Bytes::new(key), id);
        self.wrote(ts, id)
    }

    #[inline]
    fn wrote(&mut self, ts: u64, id: u32) -> Reply {
        self.live.get_mut(&ts).unwrap().keys.push(id);
        self.versions += 1;
        Reply::Written
    }
}
