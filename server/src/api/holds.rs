//! Snapshots that requests hold for a while, so that the next page, or another key, can be read at the same timestamp.
//!
//! ```text
//! GET /rows           its page isn't the last one: its snapshot is held for 30 seconds
//! GET /key/a?hold=60  the snapshot that it was read at is held for a minute
//! GET /rows?hold=0    nothing is held: the page behind it is told as long as its snapshot is there
//! ```
//!
//! 1. There is one protection for each timestamp, and `MOST` of them at most. It lives as long as the longest hold of it.
//! 2. A client holds its share of them (`shares`). One that several hold counts for each of them.
//! 3. All holds together are `MOST_HOLDS` at most, because any number of clients may hold one snapshot.
//! 4. A protection may be released before its time, where it lags more than --max-lag. Then it is held no longer.

use super::seconds_in;
use crate::core::Core;
use crate::door::Turn;
use crate::http::Request;
use crate::outcome::Outcome;
use crate::query::Arguments;
use crate::refusal::Refusal;
use crate::seats::Owner;
use crate::shares::{full, Client, Full};
use ripsawbean::{Command, Refusal as Refused};
use std::collections::BTreeMap;
use std::time::{Duration, Instant};

/// Snapshots at once.
const MOST: usize = 256;
/// Holds of all clients. They take some two megabytes.
const MOST_HOLDS: usize = 64 * MOST;
/// Seconds for which a request may hold a snapshot.
const LONGEST: f64 = 300.0;

/// What a request asks to be held, for whom.
#[derive(Clone, Debug)]
pub struct Wanted {
    by: Client,
    time: Option<Duration>,
}

impl Wanted {
    pub fn of(request: &Request, given: &Arguments) -> Result<Wanted, Refusal> {
        Ok(Wanted { by: request.client.clone(), time: seconds_in(given, "hold", LONGEST)? })
    }

    pub fn by(&self) -> &Client {
        &self.by
    }

    /// For how long, where `unsaid` is what nothing said stands for. `None`: not at all.
    pub fn time(&self, unsaid: Option<Duration>) -> Option<Duration> {
        self.time.or(unsaid).filter(|time| !time.is_zero())
    }
}

#[derive(Debug, Default)]
pub struct Holds {
    snapshots: BTreeMap<u64, Snapshot>,
    /// When each client's hold of a snapshot ends.
    ends: BTreeMap<(Client, u64), Instant>,
}

#[derive(Debug)]
struct Snapshot {
    protection: u64,
    /// When the longest hold of it ends.
    until: Instant,
}

impl Holds {
    /// Whose holds leave no room for a client's hold of a snapshot, and when the first of them ends.
    fn full(&self, client: &Client, timestamp: u64) -> Option<(Full, Instant)> {
        let own = self.ends.range((client.clone(), 0)..=(client.clone(), u64::MAX)).map(|(_, &end)| end);
        // What stands already counts no more.
        let one_more = |is_held: bool, count: usize| if is_held { 0 } else { count + 1 };
        let is_own = self.ends.contains_key(&(client.clone(), timestamp));
        let all = one_more(self.snapshots.contains_key(&timestamp), self.snapshots.len());
        let (full, first) = match full(MOST, client, one_more(is_own, own.clone().count()), all, 0) {
            Some(Full::OfOne) => (Full::OfOne, own.min()),
            Some(Full::OfAll) => (Full::OfAll, self.snapshots.values().map(|snapshot| snapshot.until).min()),
            None if one_more(is_own, self.ends.len()) > MOST_HOLDS => (Full::OfAll, self.ends.values().min().copied()),
            None => return None,
        };
        first.map(|first| (full, first))
    }

    fn add(&mut self, client: &Client, timestamp: u64, protection: u64, until: Instant) {
        let snapshot = self.snapshots.entry(timestamp).or_insert(Snapshot { protection, until });
        *snapshot = Snapshot { protection, until: snapshot.until.max(until) };
        let end = self.ends.entry((client.clone(), timestamp)).or_insert(until);
        *end = until.max(*end);
    }
}

impl Core {
    /// Holds a snapshot that can be read now, as a request asks. `unsaid` is for how long where it says nothing.
    pub fn hold_wanted(&mut self, timestamp: u64, wanted: &Wanted, unsaid: Option<Duration>) -> Result<(), Refusal> {
        match wanted.time(unsaid) {
            Some(time) => self.hold_by(&wanted.by, timestamp, Instant::now(), time),
            None => Ok(()),
        }
    }

    fn hold_by(&mut self, client: &Client, timestamp: u64, now: Instant, time: Duration) -> Result<(), Refusal> {
        let mut full = self.holds.full(client, timestamp);
        if full.is_some_and(|(_, until)| until <= now) {
            self.let_go_over(now);
            full = self.holds.full(client, timestamp);
        }
        if let Some((full, until)) = full {
            return Err(full.refusal("holds", "snapshots that are held", until.saturating_duration_since(now)));
        }
        let protection = self.protection_of(timestamp)?;
        self.holds.add(client, timestamp, protection, now + time);
        Ok(())
    }

    /// The protection of a snapshot, which is made where none stands.
    fn protection_of(&mut self, timestamp: u64) -> Result<u64, Refusal> {
        let protections = &self.ledger.protections;
        let held = self.holds.snapshots.get(&timestamp).map(|snapshot| snapshot.protection);
        if let Some(protection) = held.filter(|number| protections.contains_key(number)) {
            return Ok(protection);
        }
        match self.ask(Owner::Server, Command::Protect { t: timestamp }) {
            Ok(Outcome::Protected { id, .. }) => Ok(id),
            Ok(Outcome::Refused(Refused::BelowHorizon(horizon))) => {
                Err(super::run::Stop::BelowHorizon(horizon).refusal())
            }
            _ => Err(super::run::Stop::NoMemory.refusal()),
        }
    }

    /// Lets go of what was held long enough: the work of each second.
    pub fn let_go_holds(&mut self, _until: Instant) -> Turn {
        self.let_go_over(Instant::now());
        Turn::Done
    }

    fn let_go_over(&mut self, now: Instant) {
        for (timestamp, snapshot) in std::mem::take(&mut self.holds.snapshots) {
            if snapshot.until <= now {
                self.release(snapshot.protection);
            } else if self.ledger.protections.contains_key(&snapshot.protection) {
                self.holds.snapshots.insert(timestamp, snapshot);
            }
        }
        let Holds { snapshots, ends } = &mut self.holds;
        ends.retain(|(_, timestamp), end| *end > now && snapshots.contains_key(timestamp));
    }
}

#[cfg(test)]
mod tests {
    use super::*;
    use crate::gate::{Right, Who};
    use crate::testing::{core, put, session, tidy};
    use std::net::IpAddr;

    const MINUTE: Duration = Duration::from_secs(60);

    fn client(address: &str, name: &str) -> Client {
        Client::new(address.parse().expect("an address"), &Who::of(name, &[Right::Read]))
    }

    /// A core with so many snapshots that can be read.
    fn with_snapshots(count: usize) -> Core {
        let mut core = core(&[]);
        let mut one = session(&mut core);
        (0..count).for_each(|_| put(&mut core, &mut one, &[("a", "1")]));
        core
    }

    /// How a hold is refused: whose share is full, and when to ask again.
    fn refused(held: Result<(), Refusal>) -> (String, String) {
        let refusal = held.expect_err("there is no room");
        assert_eq!((refusal.status, refusal.error), (503, "holds"));
        let of = refusal.members.iter().find(|(name, _)| *name == "of").expect("it says of whom");
        let seconds = refusal.headers().find(|(name, _)| *name == "Retry-After").expect("it says when");
        (of.1.as_str().expect("a word").into(), seconds.1.into())
    }

    #[test]
    fn a_snapshot_has_one_protection_which_ends_with_the_longest_hold() {
        let mut core = core(&["--history", "0"]);
        let mut one = session(&mut core);
        put(&mut core, &mut one, &[("a", "1"), ("a", "2")]);
        let now = Instant::now();
        for (name, time) in [("short", Duration::ZERO), ("long", MINUTE), ("long", Duration::ZERO)] {
            core.hold_by(&client("127.0.0.1", name), 1, now, time).expect("it holds");
        }
        tidy(&mut core);
        assert_eq!((core.ledger.protections.len(), core.ledger.horizon, core.holds.ends.len()), (1, 1, 1));
        core.let_go_over(now + MINUTE);
        assert!(core.holds.snapshots.is_empty() && core.holds.ends.is_empty());
        (0..2).for_each(|_| tidy(&mut core));
        assert_eq!((core.ledger.protections.len(), core.ledger.horizon), (0, 2));
        let refusal = core.hold_by(&client("127.0.0.1", ""), 1, now, MINUTE).unwrap_err();
        assert_eq!(refusal.error, "belowhorizon");
        assert_eq!(core.shouts, 0);
    }

    #[test]
    fn what_was_let_go_is_held_anew_and_counts_no_more() {
        let mut core = with_snapshots(1);
        let (one, now) = (client("127.0.0.1", ""), Instant::now());
        core.hold_by(&one, 1, now, MINUTE).expect("it holds");
        core.release(1);
        core.hold_by(&one, 1, now, MINUTE).expect("it holds");
        assert_eq!(core.ledger.protections.keys().copied().collect::<Vec<_>>(), [2]);
        core.release(2);
        core.let_go_over(now);
        assert!(core.holds.snapshots.is_empty() && core.holds.ends.is_empty());
    }

    #[test]
    fn a_client_has_its_share_and_all_together_the_whole() {
        let mut core = with_snapshots(253);
        let (now, own) = (Instant::now(), |name: &'static str| client("192.0.2.1", name));
        let mut hold = |timestamp, client: &Client, time| core.hold_by(client, timestamp, now, time);
        for timestamp in 1..=192 {
            hold(timestamp, &own("one"), MINUTE).expect("it holds");
        }
        assert_eq!(refused(hold(193, &own("one"), MINUTE)), ("client".into(), "60".into()));
        hold(192, &own("one"), MINUTE * 2).expect("it holds it already");
        // What the others hold too counts for each of them, and is no further snapshot.
        for timestamp in 1..=160 {
            hold(timestamp, &own("other"), MINUTE / 4).expect("it holds");
        }
        for timestamp in 193..=224 {
            hold(timestamp, &own("other"), MINUTE / 2).expect("it holds");
        }
        assert_eq!(refused(hold(225, &own("other"), MINUTE)), ("client".into(), "15".into()));
        for timestamp in 225..=252 {
            hold(timestamp, &own("third"), MINUTE * 3).expect("it holds");
        }
        // The first snapshot that ends is one that the second client alone holds.
        assert_eq!(refused(hold(253, &own("third"), MINUTE)), ("all".into(), "30".into()));
        hold(1, &own("third"), MINUTE).expect("it is held already");
        let operator = Client::new([192, 0, 2, 1].into(), &Who::anyone());
        hold(253, &operator, MINUTE).expect("some are kept for operators");
        assert_eq!(core.ledger.protections.len(), 253);
    }

    #[test]
    fn what_is_over_makes_room_at_once() {
        let mut core = with_snapshots(193);
        let (now, one) = (Instant::now(), client("192.0.2.1", ""));
        for timestamp in 1..=192 {
            core.hold_by(&one, timestamp, now, Duration::from_millis(1000 * timestamp + 1)).expect("it holds");
        }
        let second = Duration::from_secs(1);
        assert_eq!(refused(core.hold_by(&one, 193, now, MINUTE)), ("client".into(), "2".into()));
        assert_eq!(refused(core.hold_by(&one, 193, now + second, MINUTE)), ("client".into(), "1".into()));
        core.hold_by(&one, 193, now + 2 * second, MINUTE).expect("the first one is over");
        assert_eq!((core.holds.snapshots.len(), core.ledger.protections.len()), (192, 192));
    }

    #[test]
    fn any_number_of_clients_hold_one_snapshot_up_to_a_bound() {
        let mut core = with_snapshots(1);
        let now = Instant::now();
        let address = |number: usize| IpAddr::from((number as u32).to_be_bytes());
        let anyone = |number: usize| Client::new(address(number), &Who::anyone());
        for number in 0..MOST_HOLDS {
            core.hold_by(&anyone(number), 1, now, MINUTE).expect("it holds");
        }
        let one_more = core.hold_by(&anyone(MOST_HOLDS), 1, now, MINUTE);
        assert_eq!(refused(one_more), ("all".into(), "60".into()));
        core.hold_by(&anyone(7), 1, now, MINUTE).expect("it holds it already");
        core.hold_by(&anyone(MOST_HOLDS), 1, now + MINUTE, MINUTE).expect("the others are over");
        assert_eq!((core.holds.ends.len(), core.ledger.protections.len()), (1, 1));
    }

    #[test]
    fn a_hold_of_no_time_is_none() {
        let mut core = with_snapshots(1);
        let mut held_by = |time, unsaid| {
            let wanted = Wanted { by: client("192.0.2.1", ""), time };
            core.hold_wanted(1, &wanted, unsaid).expect("there is room");
            core.ledger.protections.len()
        };
        assert_eq!([held_by(Some(Duration::ZERO), Some(MINUTE)), held_by(None, None)], [0, 0]);
        assert_eq!([held_by(Some(MINUTE), None), held_by(None, Some(MINUTE))], [1, 1]);
    }

    impl Wanted {
        /// What a request of a client of loopback asks that says nothing.
        pub fn unsaid() -> Wanted {
            Wanted { by: crate::testing::LOOPBACK.clone(), time: None }
        }
    }

    impl Core {
        /// Holds it for one client of loopback.
        pub fn hold_snapshot(&mut self, timestamp: u64, time: Duration) -> Result<(), Refusal> {
            self.hold_by(&crate::testing::LOOPBACK, timestamp, Instant::now(), time)
        }
    }
}
