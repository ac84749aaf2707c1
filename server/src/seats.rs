//! The 64 seats of the database, and the sessions that have one.
//!
//! A session is one WebSocket, or one request of `POST /call`. The server makes its own calls and opens the feeds that
//! it streams under the last seat, which a client's session may have as well: `Owner` keeps the two apart.
//!
//! 1. No two clients' sessions have one seat, and those of one client have no more than its share.
//! 2. A `Taken` has what stands in the database under the seat by its session's own lines. All of it ends with the
//!    session (`Core::end`), and only then is the seat given back.

use crate::gate::{Right, Who};
use crate::refusal::Refusal;
use crate::shares::{Client, Held, Table};
use std::collections::{BTreeSet, VecDeque};
use std::net::SocketAddr;
use std::sync::Arc;
use std::time::{Duration, Instant};
use tokio::sync::watch;

/// How many seats the database has.
pub const SEATS: u8 = 64;
/// The seat of the server's own calls, which a client's session may have as well.
pub const OWN_SEAT: u8 = SEATS - 1;

/// Whose a feed or a protection is.
#[derive(Clone, Copy, Debug, PartialEq, Eq, PartialOrd, Ord)]
pub enum Owner {
    /// The server's: it streams the feed, or a name or a request has the protection.
    Server,
    /// That of the session with this seat.
    Seat(u8),
}

impl Owner {
    /// The seat by which its calls are made.
    pub fn seat(self) -> u8 {
        match self {
            Owner::Server => OWN_SEAT,
            Owner::Seat(seat) => seat,
        }
    }
}

/// Who ends a session that would go on.
#[derive(Clone, Copy, Debug, PartialEq, Eq)]
pub enum EndedBy {
    Operator,
    /// It was silent for longer than `--seat-age`.
    Silence,
}

/// What a connection knows of its session. What it has in the database is in `Seats`.
#[derive(Debug)]
pub struct Session {
    pub seat: u8,
    /// Lines that were taken.
    pub lines: u64,
    /// The timestamp that it began last: what `.` stands for.
    pub last: Option<u64>,
    pub who: Who,
    pub client: Client,
    end: watch::Receiver<Option<EndedBy>>,
}

impl Session {
    /// Who has told it to end, where anyone has.
    pub fn ended_by(&self) -> Option<EndedBy> {
        *self.end.borrow()
    }

    /// Waits until it is told to end. While the session has its seat it may be told at any time.
    pub async fn told_to_end(&self) -> EndedBy {
        let mut end = self.end.clone();
        loop {
            if let Some(by) = *end.borrow_and_update() {
                return by;
            }
            if end.changed().await.is_err() {
                return EndedBy::Operator;
            }
        }
    }
}

/// A seat that is taken, and what stands in the database by its session's lines.
#[derive(Debug)]
pub struct Taken {
    pub since: Instant,
    /// When its last message came.
    pub heard: Instant,
    /// How long it may be silent before its undecided transactions are aborted, where it has said so.
    pub idle: Option<Duration>,
    /// The address of its client.
    pub peer: SocketAddr,
    pub may_write: bool,
    _place: Held,
    pub begun: BTreeSet<u64>,
    pub feeds: BTreeSet<u64>,
    pub protections: BTreeSet<u64>,
    end: watch::Sender<Option<EndedBy>>,
}

impl Taken {
    /// Tells its connection to end the session.
    pub fn tell_to_end(&self, by: EndedBy) {
        self.end.send_replace(Some(by));
    }
}

/// The seat that was free for longest is taken first.
#[derive(Debug)]
pub struct Seats {
    free: VecDeque<u8>,
    taken: Vec<Option<Taken>>,
    places: Arc<Table>,
}

impl Default for Seats {
    fn default() -> Seats {
        let places = Table::of_places(SEATS.into(), "seats", "sessions");
        Seats { free: (0..SEATS).collect(), taken: (0..SEATS).map(|_| None).collect(), places }
    }
}

impl Seats {
    /// A new session, where there is room for it.
    pub fn take(&mut self, peer: SocketAddr, who: Who) -> Result<Session, Refusal> {
        let client = Client::new(peer.ip(), &who);
        let place = self.places.take(&client)?;
        let seat = self.free.pop_front().expect("as many are free as places aren't taken");
        let (now, (tell, end)) = (Instant::now(), watch::channel(None));
        self.taken[usize::from(seat)] = Some(Taken {
            since: now,
            heard: now,
            idle: None,
            peer,
            may_write: who.may(Right::Write),
            _place: place,
            begun: BTreeSet::new(),
            feeds: BTreeSet::new(),
            protections: BTreeSet::new(),
            end: tell,
        });
        Ok(Session { seat, lines: 0, last: None, who, client, end })
    }

    /// Frees a seat.
    pub fn give_back(&mut self, seat: u8) {
        if self.taken[usize::from(seat)].take().is_some() {
            self.free.push_back(seat);
        }
    }

    /// The session of a seat.
    pub fn taken(&self, seat: u8) -> Option<&Taken> {
        self.taken.get(usize::from(seat))?.as_ref()
    }

    pub fn taken_mut(&mut self, seat: u8) -> Option<&mut Taken> {
        self.taken.get_mut(usize::from(seat))?.as_mut()
    }

    /// Its client has sent something that is answered now.
    pub fn hears(&mut self, seat: u8) {
        if let Some(taken) = self.taken_mut(seat) {
            taken.heard = Instant::now();
        }
    }

    /// An undecided transaction of a session that has been silent for as long as it may, with its seat.
    pub fn idle(&self) -> Option<(u8, u64)> {
        let silent = |taken: &Taken| taken.idle.is_some_and(|most| taken.heard.elapsed() > most);
        self.all().filter(|(_, taken)| silent(taken)).find_map(|(seat, taken)| Some((seat, *taken.begun.first()?)))
    }

    /// The session of an owner, where it is one.
    pub fn of_mut(&mut self, owner: Owner) -> Option<&mut Taken> {
        match owner {
            Owner::Server => None,
            Owner::Seat(seat) => self.taken_mut(seat),
        }
    }

    /// All sessions, by their seat.
    pub fn all(&self) -> impl Iterator<Item = (u8, &Taken)> {
        (0..SEATS).filter_map(|seat| Some((seat, self.taken(seat)?)))
    }

    /// How many are taken.
    pub fn count(&self) -> usize {
        usize::from(SEATS) - self.free.len()
    }
}

#[cfg(test)]
mod tests {
    use super::*;

    fn taken(seats: &mut Seats, last: u8) -> Option<Session> {
        seats.take(([192, 0, 2, last], 1).into(), Who::anyone()).ok()
    }

    /// As many sessions as one client gets.
    fn all_of(seats: &mut Seats, last: u8) -> Vec<Session> {
        std::iter::from_fn(|| taken(seats, last)).collect()
    }

    #[test]
    fn no_two_sessions_have_one_seat() {
        let mut seats = Seats::default();
        let sessions: Vec<Session> = [1, 2].into_iter().flat_map(|last| all_of(&mut seats, last)).collect();
        let distinct: BTreeSet<u8> = sessions.iter().map(|session| session.seat).collect();
        assert_eq!((sessions.len(), distinct.len(), seats.count()), (64, 64, 64));
        seats.give_back(7);
        seats.give_back(7);
        assert_eq!(taken(&mut seats, 3).map(|session| session.seat), Some(7));
        assert!(taken(&mut seats, 3).is_none());
    }

    #[test]
    fn one_client_leaves_seats_to_others_and_the_last_one_is_an_operators() {
        let mut seats = Seats::default();
        let mut take = |name, rights: &[Right]| seats.take(([192, 0, 2, 1], 1).into(), Who::of(name, rights));
        for (name, count, of) in [("reader", 48, "client"), ("writer", 15, "all")] {
            (0..count).for_each(|_| drop(take(name, &[Right::Read]).expect("a seat")));
            let refusal = take(name, &[Right::Read]).expect_err("its share is full");
            assert_eq!((refusal.status, refusal.error, &refusal.members[0].1), (503, "seats", &of.into()), "{name}");
        }
        assert!(take("operator", &[Right::Operate]).is_ok());
    }

    #[tokio::test]
    async fn a_session_that_is_told_to_end_knows_it_from_then_on() {
        let mut seats = Seats::default();
        let [one, other] = [1, 1].map(|last| taken(&mut seats, last).expect("a seat"));
        assert_eq!(one.ended_by(), None);
        seats.taken(one.seat).expect("it is taken").tell_to_end(EndedBy::Silence);
        assert_eq!(one.told_to_end().await, EndedBy::Silence);
        assert_eq!(one.told_to_end().await, EndedBy::Silence);
        assert_eq!((one.ended_by(), other.ended_by()), (Some(EndedBy::Silence), None));
    }

    #[test]
    fn a_session_that_says_how_long_it_may_be_silent_is_idle_after_that() {
        let mut seats = Seats::default();
        let [one, other] = [1, 1].map(|last| taken(&mut seats, last).expect("a seat").seat);
        for (seat, begun) in [(one, 7), (other, 3)] {
            seats.taken_mut(seat).expect("it is taken").begun.insert(begun);
        }
        std::thread::sleep(Duration::from_millis(2));
        assert_eq!(seats.idle(), None);
        seats.taken_mut(one).expect("it is taken").idle = Some(Duration::from_millis(1));
        seats.taken_mut(other).expect("it is taken").idle = Some(Duration::from_secs(3600));
        assert_eq!(seats.idle(), Some((one, 7)));
        let before = seats.taken(one).expect("it is taken").heard;
        seats.hears(one);
        assert!(seats.taken(one).expect("it is taken").heard > before);
    }

    #[test]
    fn the_seat_that_was_free_for_longest_comes_first() {
        let mut seats = Seats::default();
        let first = taken(&mut seats, 1).expect("a seat");
        seats.give_back(first.seat);
        assert!(all_of(&mut seats, 1).iter().all(|session| session.seat != first.seat));
    }
}
