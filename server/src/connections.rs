//! How many connections, and which of them are cut.
//!
//! `serving` asks for a place for each connection, and wraps its stream; `http` says when a request has passed the gate
//! and when it is answered. Between requests, before the first one, and while it waits for its client, a connection is
//! silent. It is cut where it is silent for too long, and earlier where another one needs its place. A busy one is cut
//! where its reader takes nothing for `--patience`, and where it sends on while a feed is streamed to it. See `watched`.
//!
//! ```text
//! come             silent, for 10 s at most
//! asks             busy, as long as a `Busy` is there
//! waits            silent, though busy: its body isn't whole yet
//! answers          silent, though busy: its client takes the answer
//! Busy is dropped  silent, for 60 s at most
//! ```
//!
//! 1. At most `most` have a place, each from `come` until it is cut, or until its last `Arc` is dropped.
//! 2. One that is worked for, streams a feed or has a session is never cut to make room. See `silences` for the others.
//! 3. Those of one client that are busy have their share: a request beyond it is refused. So some are silent always,
//!    unless several clients are busy, and a new one finds room.
//! 4. To make room, to become busy and to become silent cost O(log n).

mod silences;
mod watched;

use crate::refusal::Refusal;
use crate::shares::{network_of, Client, Held, Table as Shared};
use parking_lot::Mutex;
use silences::{Silence, Silences};
use std::collections::{BTreeSet, HashMap};
use std::net::{IpAddr, SocketAddr};
use std::sync::atomic::{AtomicBool, AtomicU64, Ordering};
use std::sync::{Arc, Weak};
use std::time::{Duration, Instant};
use tokio::sync::Notify;
pub use watched::Watched;

const HEAD: Duration = Duration::from_secs(10); // how long a new connection may take for its first request
const REST: Duration = Duration::from_secs(60); // how long it may rest between two

pub struct Connections {
    most: usize,
    patience: Duration,
    table: Mutex<Table>,
    /// Those that are busy.
    busy: Arc<Shared>,
    /// Bytes that all connections together have read and written.
    read: AtomicU64,
    written: AtomicU64,
}

#[derive(Default)]
struct Table {
    /// The number of the last connection.
    last: u64,
    open: HashMap<u64, Entry>,
    silent: Silences,
    /// When each silence has lasted too long: the connection's number.
    until: BTreeSet<(Instant, u64)>,
}

struct Entry {
    connection: Weak<Connection>,
    network: IpAddr,
    /// Requests that are not answered yet, and what they count for.
    busy: usize,
    held: Option<Held>,
    has_asked: bool,
    silence: Option<(Silence, Instant)>,
}

impl Connections {
    pub fn new(most: usize, patience: Duration) -> Arc<Connections> {
        let (read, written) = (AtomicU64::new(0), AtomicU64::new(0));
        let busy = Shared::of_places(most, "connections", "connections with a request that isn't answered");
        Arc::new(Connections { most, patience, table: Mutex::default(), busy, read, written })
    }

    /// A new connection that may be served, or `None` where there are too many and none makes room.
    pub fn come(self: &Arc<Connections>, peer: SocketAddr) -> Option<Arc<Connection>> {
        let mut table = self.table.lock();
        let oldest = if table.open.len() >= self.most { table.take_first(network_of(peer.ip())) } else { None };
        let connection = (table.open.len() < self.most).then(|| {
            table.last += 1;
            let number = table.last;
            let connection = Arc::new(Connection::new(self.clone(), number, peer));
            table.add(number, &connection);
            connection
        });
        drop(table);
        cut_all(oldest);
        connection
    }

    /// Connections that have a place.
    pub fn open(&self) -> usize {
        self.table.lock().open.len()
    }

    /// Bytes that were read and written, those of connections that are gone too.
    pub fn bytes(&self) -> (u64, u64) {
        (self.read.load(Ordering::Relaxed), self.written.load(Ordering::Relaxed))
    }

    /// Once a second: cuts those that are silent for too long.
    pub fn tidy(&self) {
        self.tidy_at(Instant::now());
    }

    fn tidy_at(&self, now: Instant) {
        let over = self.table.lock().take_over(now);
        cut_all(over);
    }
}

/// Not under the lock, as the end of a connection takes it.
fn cut_all(connections: impl IntoIterator<Item = Weak<Connection>>) {
    connections.into_iter().filter_map(|one| one.upgrade()).for_each(|one| one.cut());
}

impl Table {
    fn add(&mut self, number: u64, connection: &Arc<Connection>) {
        let network = network_of(connection.peer.ip());
        let (connection, silence) = (Arc::downgrade(connection), None);
        let entry = Entry { connection, network, busy: 0, held: None, has_asked: false, silence };
        self.open.insert(number, entry);
        self.silent.come(network);
        self.rests(number, HEAD);
    }

    fn rests(&mut self, number: u64, most: Duration) {
        let Some(entry) = self.open.get_mut(&number).filter(|entry| entry.silence.is_none()) else { return };
        let until = Instant::now() + most;
        entry.silence = Some((self.silent.add(entry.network, number, entry.has_asked), until));
        self.until.insert((until, number));
    }

    fn speaks(&mut self, number: u64) {
        let Some(entry) = self.open.get_mut(&number) else { return };
        let Some((silence, until)) = entry.silence.take() else { return };
        self.silent.remove(entry.network, silence);
        self.until.remove(&(until, number));
    }

    fn goes(&mut self, number: u64) -> Option<Weak<Connection>> {
        self.speaks(number);
        let entry = self.open.remove(&number)?;
        self.silent.go(entry.network);
        Some(entry.connection)
    }

    fn take_first(&mut self, comes: IpAddr) -> Option<Weak<Connection>> {
        let number = self.silent.first(comes)?;
        self.goes(number)
    }

    fn take_over(&mut self, now: Instant) -> Vec<Weak<Connection>> {
        let (mut over, mut later) = (Vec::new(), Vec::new());
        while let Some((until, number)) = self.until.pop_first() {
            if until >= now {
                self.until.insert((until, number));
                break;
            }
            match self.open.get_mut(&number) {
                // Who waits for it has a limit of its own.
                Some(Entry { busy: 1.., silence: Some((_, until)), .. }) => {
                    *until = now + REST;
                    later.push((*until, number));
                }
                _ => over.extend(self.goes(number)),
            }
        }
        self.until.extend(later);
        over
    }
}

/// What is known of one connection. It is open until the last of its `Arc`s is dropped.
pub struct Connection {
    pub peer: SocketAddr,
    number: u64,
    all: Arc<Connections>,
    is_cut: AtomicBool,
    /// A feed is streamed to it.
    is_exempt: AtomicBool,
    cut: Notify,
}

impl std::fmt::Debug for Connection {
    fn fmt(&self, f: &mut std::fmt::Formatter<'_>) -> std::fmt::Result {
        write!(f, "Connection({} of {})", self.number, self.peer)
    }
}

/// As long as one is there, its connection has a request that isn't answered yet.
#[derive(Debug)]
pub struct Busy(Arc<Connection>);

/// As long as it is there, a connection waits for its client, and may have to make room.
pub struct Waits(Arc<Connection>);

impl Connection {
    fn new(all: Arc<Connections>, number: u64, peer: SocketAddr) -> Connection {
        let (is_cut, is_exempt) = (AtomicBool::new(false), AtomicBool::new(false));
        Connection { peer, number, all, is_cut, is_exempt, cut: Notify::new() }
    }

    /// A request of a client has passed the gate. Where it is refused the connection stays silent.
    pub fn asks(self: &Arc<Connection>, client: &Client) -> Result<Busy, Refusal> {
        let mut table = self.all.table.lock();
        if let Some(entry) = table.open.get_mut(&self.number) {
            if entry.busy == 0 {
                entry.held = Some(self.all.busy.take(client)?);
            }
            entry.busy += 1;
            entry.has_asked = true;
        }
        table.speaks(self.number);
        Ok(Busy(self.clone()))
    }

    /// It waits for a body, from the first byte to the last one.
    pub fn waits(self: &Arc<Connection>) -> Waits {
        self.all.table.lock().rests(self.number, REST);
        Waits(self.clone())
    }

    /// Its reader may be slow until the request is answered: it isn't cut as one that takes nothing. Streams of feeds
    /// are so. In return it may send nothing meanwhile.
    pub fn exempt(&self) {
        self.is_exempt.store(true, Ordering::Release);
    }

    fn is_exempt(&self) -> bool {
        self.is_exempt.load(Ordering::Acquire)
    }

    /// Ends it: its place is free at once, and whoever waits for its end is told. Nothing more is read or written.
    pub fn cut(&self) {
        self.all.table.lock().goes(self.number);
        self.is_cut.store(true, Ordering::Release);
        self.cut.notify_waiters();
    }

    pub fn is_cut(&self) -> bool {
        self.is_cut.load(Ordering::Acquire)
    }

    /// Waits until it is to end.
    pub async fn cut_off(&self) {
        // Whoever is notified is told of each cut from here on, and is asked for those before.
        let told = self.cut.notified();
        if !self.is_cut() {
            told.await;
        }
    }

    /// The stream, which notes what is written and read.
    pub fn watch<S>(self: &Arc<Connection>, stream: S) -> Watched<S> {
        Watched::new(stream, self.clone(), self.all.patience)
    }
}

impl Drop for Connection {
    fn drop(&mut self) {
        self.all.table.lock().goes(self.number);
    }
}

impl Busy {
    /// The answer is there, and only its client is waited for, unless a feed is streamed.
    pub fn answers(&self) {
        if !self.0.is_exempt() {
            self.0.all.table.lock().rests(self.0.number, REST);
        }
    }
}

impl Drop for Busy {
    fn drop(&mut self) {
        let mut table = self.0.all.table.lock();
        let Some(entry) = table.open.get_mut(&self.0.number) else { return };
        entry.busy -= 1;
        if entry.busy == 0 {
            entry.held = None;
            self.0.is_exempt.store(false, Ordering::Release);
            table.rests(self.0.number, REST);
        }
    }
}

impl Drop for Waits {
    fn drop(&mut self) {
        self.0.all.table.lock().speaks(self.0.number);
    }
}

#[cfg(test)]
mod tests;
