//! What one client may take of what there is for all: connections, sessions, streams, names, snapshots, and bytes of
//! bodies, reports, answers and remembered keys.
//!
//! A client is a token, or its address where that has no name. It has three quarters of a table at most, so the last one
//! is for others. A sixty-fourth is for those who may operate.
//!
//! ```text
//! 64 seats      A has 48         A's next one is refused: its share is full
//!               B has 15         B's next one is refused: all are taken, but for one
//!               an operator      has the last one
//! ```
//!
//! A table counts places, or bytes. Of bytes each body, report or answer has `FREE` by itself, so small ones are never
//! refused. How long an answer is isn't known before its call is made. So whoever makes calls asks for room before one
//! whose answer may be long, and waits where there is none. What came of it counts even where it is beyond the table.
//!
//! ```text
//! table.take(client)                 a place, until it is dropped; or it is refused
//! held.grow(n)                       it will have n bytes, or is refused
//! held.has_room(), held.set(n)       whether there is room for a long answer now; it has n bytes
//! ```
//!
//! 1. What is taken goes beyond no share. Where room is asked for under one lock, what is set does by one answer at most.
//! 2. A client that has nothing takes no memory here.
//! 3. What is known of nobody, as what stands behind a restart, is the server's. It has no share, and shares are parts of
//!    what it leaves: else who had his share before would take the others' too.

use crate::gate::{Right, Who};
use crate::refusal::Refusal;
use parking_lot::Mutex;
use std::collections::HashMap;
use std::net::{IpAddr, Ipv6Addr};
use std::sync::Arc;
use std::time::Duration;
use tokio::sync::Notify;

/// Bytes of a body, a report or an answer that aren't counted.
pub const FREE: usize = 1 << 16;
/// The part of a table that one client leaves to others, and the part that is for those who may operate.
const FOR_OTHERS: usize = 4;
const FOR_OPERATORS: usize = 64;
/// Bits of an IPv6 address that one client may choose freely.
const OWN_BITS: u32 = 64;

/// Where a client is: its address, or the network of 64 bits that it has for itself.
pub fn network_of(address: IpAddr) -> IpAddr {
    match address.to_canonical() {
        IpAddr::V6(it) => IpAddr::V6(Ipv6Addr::from(u128::from(it) >> OWN_BITS << OWN_BITS)),
        it @ IpAddr::V4(_) => it,
    }
}

/// Whose something is.
#[derive(Clone, Debug, PartialEq, Eq, PartialOrd, Ord, Hash)]
pub struct Client {
    whose: Whose,
    may_operate: bool,
}

#[derive(Clone, Debug, PartialEq, Eq, PartialOrd, Ord, Hash)]
enum Whose {
    Server,
    Token(Arc<str>),
    Network(IpAddr),
}

impl Client {
    /// The server itself, and whoever isn't known any more.
    pub const SERVER: Client = Client { whose: Whose::Server, may_operate: true };

    pub fn new(address: IpAddr, who: &Who) -> Client {
        let whose = match who.shared_name() {
            name if name.is_empty() => Whose::Network(network_of(address)),
            name => Whose::Token(name),
        };
        // Who has no right at all is told that the server lives, as an operator is.
        Client { whose, may_operate: who.may(Right::Operate) || !who.may(Right::Any) }
    }

    /// What names it behind a restart, where anything does.
    pub fn word(&self) -> Option<String> {
        match &self.whose {
            Whose::Server => None,
            Whose::Token(name) => Some(format!("token/{name}")),
            Whose::Network(address) => Some(format!("network/{address}")),
        }
    }

    /// Whom a word names. What it may do is known once it comes.
    pub fn in_word(word: &str) -> Option<Client> {
        let whose = match word.split_once('/')? {
            ("token", name) => Whose::Token(name.into()),
            ("network", address) => Whose::Network(address.parse().ok()?),
            _ => return None,
        };
        Some(Client { whose, may_operate: false })
    }
}

/// Whose share leaves no room.
#[derive(Clone, Copy, Debug, PartialEq, Eq)]
pub enum Full {
    OfOne,
    OfAll,
}

impl Full {
    /// The refusal of one more of what a table has, by the table's name.
    pub fn refusal(self, error: &'static str, what: &str, time: Duration) -> Refusal {
        let (of, whose) = match self {
            Full::OfOne => ("client", "this client has as many"),
            Full::OfAll => ("all", "all clients together have as many"),
        };
        Refusal::busy_for(error, format!("{whose} {what} as may be"), time).with("of", of)
    }
}

/// What is in the way of a client that would have `own` of a table of `most`, and all together `all`, of which are
/// `nobodys`.
pub fn full(most: usize, client: &Client, own: usize, all: usize, nobodys: usize) -> Option<Full> {
    let (kept, left) = (most / FOR_OPERATORS, most.saturating_sub(nobodys));
    let (of_one, of_all) = match client.may_operate {
        true => (left - left / FOR_OTHERS + kept, most),
        false => (left - left / FOR_OTHERS, most - kept),
    };
    match client.whose {
        Whose::Token(_) | Whose::Network(_) if own > of_one => Some(Full::OfOne),
        _ => (all > of_all).then_some(Full::OfAll),
    }
}

/// What all clients share of one thing.
#[derive(Debug)]
pub struct Table {
    most: usize,
    /// What each has that isn't counted.
    free: usize,
    /// The name of its refusals, and of what there is too much.
    error: &'static str,
    what: &'static str,
    counted: Mutex<Counted>,
    /// Something counts less than before.
    less: Notify,
}

#[derive(Debug, Default)]
struct Counted {
    all: usize,
    of: HashMap<Whose, usize>,
}

/// What is taken of a table, as long as it is there.
#[derive(Debug)]
pub struct Held {
    table: Arc<Table>,
    client: Client,
    count: usize,
}

impl Table {
    /// So many places.
    pub fn of_places(most: usize, error: &'static str, what: &'static str) -> Arc<Table> {
        Arc::new(Table { most, free: 0, error, what, counted: Mutex::default(), less: Notify::new() })
    }

    /// So many bytes.
    pub fn of_bytes(most: usize, error: &'static str, what: &'static str) -> Arc<Table> {
        Arc::new(Table { most, free: FREE, error, what, counted: Mutex::default(), less: Notify::new() })
    }

    /// How much is taken.
    pub fn taken(&self) -> usize {
        self.counted.lock().all
    }

    /// Something of a client, which counts nothing yet.
    pub fn begin(self: &Arc<Table>, client: &Client) -> Held {
        Held { table: self.clone(), client: client.clone(), count: 0 }
    }

    /// A place.
    pub fn take(self: &Arc<Table>, client: &Client) -> Result<Held, Refusal> {
        let mut held = self.begin(client);
        held.grow(1).map(|()| held)
    }

    /// Whether a client has room for a place, or for anything of a length that isn't known.
    pub fn check(&self, client: &Client) -> Result<(), Refusal> {
        self.full(&self.counted.lock(), client, 1).map_or(Ok(()), |full| Err(self.refusal(full)))
    }

    fn full(&self, counted: &Counted, client: &Client, more: usize) -> Option<Full> {
        let (own, nobodys) = (counted.of(client), counted.of(&Client::SERVER));
        full(self.most, client, own.saturating_add(more), counted.all.saturating_add(more), nobodys)
    }

    fn refusal(&self, full: Full) -> Refusal {
        full.refusal(self.error, self.what, Duration::from_secs(1))
    }
}

impl Counted {
    fn of(&self, client: &Client) -> usize {
        self.of.get(&client.whose).copied().unwrap_or(0)
    }

    fn add(&mut self, client: &Client, more: usize) {
        self.all += more;
        *self.of.entry(client.whose.clone()).or_default() += more;
    }

    fn take(&mut self, client: &Client, less: usize) {
        self.all -= less;
        if let Some(own) = self.of.get_mut(&client.whose) {
            *own -= less;
            if *own == 0 {
                self.of.remove(&client.whose);
            }
        }
    }
}

impl Held {
    pub fn client(&self) -> &Client {
        &self.client
    }

    /// It has so much now.
    pub fn grow(&mut self, to: usize) -> Result<(), Refusal> {
        let more = to.saturating_sub(self.table.free).saturating_sub(self.count);
        if more == 0 {
            return Ok(());
        }
        let mut counted = self.table.counted.lock();
        if let Some(full) = self.table.full(&counted, &self.client, more) {
            return Err(self.table.refusal(full));
        }
        counted.add(&self.client, more);
        self.count += more;
        Ok(())
    }

    /// Whether the table is not used up yet, the client's share neither.
    pub fn has_room(&self) -> bool {
        self.table.check(&self.client).is_ok()
    }

    /// Waits until there is room, or something else has become less.
    pub async fn room(&self) {
        // Whoever is notified is told of all that becomes less from here on.
        let less = self.table.less.notified();
        if !self.has_room() {
            less.await;
        }
    }

    /// It has so much now, whatever the others have.
    pub fn set(&mut self, to: usize) {
        let to = to.saturating_sub(self.table.free);
        if to == self.count {
            return;
        }
        let mut counted = self.table.counted.lock();
        match to.checked_sub(self.count) {
            Some(more) => counted.add(&self.client, more),
            None => counted.take(&self.client, self.count - to),
        }
        drop(counted);
        if to < self.count {
            self.table.less.notify_waiters();
        }
        self.count = to;
    }
}

impl Drop for Held {
    fn drop(&mut self) {
        self.set(0);
    }
}

#[cfg(test)]
mod tests {
    use super::*;

    const MOST: usize = 1 << 20;

    fn client(last: u8) -> Client {
        Client::new([192, 0, 2, last].into(), &Who::of("", &[Right::Read]))
    }

    fn named(name: &str, rights: &[Right]) -> Client {
        Client::new([192, 0, 2, 1].into(), &Who::of(name, rights))
    }

    /// How a place is refused: its status and name, and whose share is full.
    fn refused<T>(taken: Result<T, Refusal>) -> Option<(u16, &'static str, String)> {
        let refusal = taken.err()?;
        assert!(refusal.headers().any(|(name, _)| name == "Retry-After"), "{refusal}");
        let of = refusal.members.iter().find(|(name, _)| *name == "of").map(|(_, of)| of.as_str().unwrap_or_default());
        Some((refusal.status, refusal.error, of.unwrap_or_default().to_string()))
    }

    /// As many places as a client gets.
    fn all_of(table: &Arc<Table>, client: &Client) -> Vec<Held> {
        std::iter::from_fn(|| table.take(client).ok()).collect()
    }

    #[test]
    fn the_last_quarter_is_for_others_and_the_last_places_for_operators() {
        let table = Table::of_places(64, "seats", "sessions");
        let [reader, other] = ["reader", "other"].map(|name| named(name, &[Right::Read]));
        let taken = all_of(&table, &reader);
        assert_eq!(taken.len(), 48);
        assert_eq!(refused(table.take(&reader)), Some((503, "seats", "client".into())));
        let others = all_of(&table, &other);
        assert_eq!(others.len(), 15);
        for client in [&other, &client(1)] {
            assert_eq!(refused(table.take(client)), Some((503, "seats", "all".into())));
        }
        let operator = table.take(&named("root", &[Right::Operate])).expect("one is kept");
        assert_eq!((table.taken(), refused(table.take(operator.client())).is_some()), (64, true));
        drop(taken);
        assert_eq!(all_of(&table, &other).len(), 48 - 15);
        drop((others, operator));
        assert!(table.is_empty());
    }

    #[test]
    fn small_tables_have_room_for_one_client() {
        let places = |most| all_of(&Table::of_places(most, "feeds", "streams"), &client(1)).len();
        assert_eq!([1, 2, 3, 4, 8, 256].map(places), [1, 2, 3, 3, 6, 192]);
    }

    #[test]
    fn a_client_is_a_token_or_a_network() {
        let at = |address: &str| Client::new(address.parse().expect("an address"), &Who::of("", &[Right::Read]));
        assert_eq!(at("192.0.2.1"), at("::ffff:192.0.2.1"));
        assert_eq!(at("2001:db8:0:1::1"), at("2001:db8:0:1:ffff::2"));
        assert!(at("192.0.2.1") != at("192.0.2.2") && at("2001:db8:0:1::1") != at("2001:db8:0:2::1"));
        let (one, other) = (named("one", &[Right::Read]), named("other", &[Right::Read]));
        assert!(one != other && one != client(1));
        assert_eq!(one, Client::new([192, 0, 2, 9].into(), &Who::of("one", &[Right::Read])));
    }

    #[test]
    fn of_what_nobody_has_left_each_client_has_its_share() {
        let table = Table::of_places(64, "consumers", "names");
        let mut left = table.begin(&Client::SERVER);
        left.set(48);
        let taken = all_of(&table, &client(1));
        assert_eq!((taken.len(), refused(table.take(&client(1)))), (12, Some((503, "consumers", "client".into()))));
        let others = all_of(&table, &client(2));
        assert_eq!((others.len(), table.taken()), (3, 63));
        // Nobody's own is bounded by the table alone.
        left.set(60);
        drop((taken, others));
        assert_eq!(all_of(&table, &client(1)).len(), 3);
    }

    #[test]
    fn bytes_have_bounds_as_places_have() {
        let bodies = Table::of_bytes(64 * MOST, "bodies", "bytes of bodies");
        let begun = |last| {
            let mut body = bodies.begin(&client(last));
            body.grow(FREE + MOST).map(|()| body)
        };
        let mut held: Vec<Held> = (0..48).map(|_| begun(1).expect("there is room")).collect();
        assert_eq!(refused(begun(1)), Some((503, "bodies", "client".into())));
        held.extend((0..15).map(|_| begun(2).expect("there is room")));
        assert!(begun(3).is_err());
        held.pop();
        assert!(begun(3).is_ok() && begun(1).is_err());
        drop(held);
        assert!(bodies.is_empty());
    }

    #[test]
    fn a_small_body_is_never_refused() {
        let bodies = Table::of_bytes(64 * MOST, "bodies", "bytes of bodies");
        let mut held = bodies.begin(&client(1));
        held.set(FREE + 48 * MOST);
        let mut small = bodies.begin(&client(1));
        assert!(small.grow(1).is_ok() && small.grow(FREE).is_ok() && small.grow(FREE + 1).is_err());
        drop(held);
        assert!(small.grow(FREE + 1).is_ok() && small.count == 1);
    }

    #[tokio::test(start_paused = true)]
    async fn an_answer_waits_until_others_are_taken() {
        let answers = Table::of_bytes(4 * MOST, "answers", "bytes of answers");
        let [mut one, mut other, waits] = [1, 1, 1].map(|last| answers.begin(&client(last)));
        one.set(FREE + MOST);
        assert!(waits.has_room() && answers.begin(&client(2)).has_room());
        // What has come of a call counts, also beyond the share.
        other.set(FREE + 2 * MOST);
        assert!(!waits.has_room() && answers.begin(&client(2)).has_room());
        other.set(FREE + 4 * MOST);
        assert!(!answers.begin(&client(2)).has_room());
        let room = async {
            while !waits.has_room() {
                waits.room().await;
            }
        };
        let taken = async {
            tokio::task::yield_now().await;
            other.set(FREE);
            assert!(waits.has_room());
        };
        let waited = tokio::time::timeout(Duration::from_secs(1), async { tokio::join!(room, taken) });
        waited.await.expect("who waits is woken");
        drop((one, other, waits));
        assert!(answers.is_empty());
    }

    impl Table {
        pub fn is_empty(&self) -> bool {
            let counted = self.counted.lock();
            counted.all == 0 && counted.of.is_empty()
        }
    }
}
