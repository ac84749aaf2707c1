//! The lock before the one database, and who is woken when it was used.
//!
//! Each handler, stream and timer works by `run`. The lock is one that is handed on in turn where it was held for long,
//! so who works in turns lets all others in.
//!
//! 1. No one holds the lock over an await: `run` takes a closure that can't have one.
//! 2. When the lock is given back, closing was done where it is due, or its time is known to `due`.
//! 3. How full memory is was looked at soon after the last rows were written.
//! 4. `moved` changes after the lock was given back, so who is woken finds it free.
//! 5. Work that may hold the lock for longer than a turn goes one at a time: who has such work takes the lane for it
//!    before it waits for the lock. So who comes with short work waits for one such at most. A transaction that is read
//!    in turns keeps the lane between them: so one is undecided meanwhile.
//! 6. Behind work that took too long while others waited, the lane rests. So long work leaves two thirds of the time
//!    to others, however much of it there is.
//! 7. Who works in the lane holds up its own thread alone. A thread of the runtime looks after the sockets of all
//!    others too, so it hands that on before.
//! 8. No one has the lane who waits for anything but a turn, the lane's rest and the lock. Who goes away gives it back.
//! 9. One of each client's waits for the lane, in the order in which they came, and its others wait for that one. So who
//!    comes waits for one of each other client at most. The server's own work doesn't wait for it at all.
//! 10. A client has few short turns at once, on all threads but one, and its others wait for a `Permit`. Else who has 400
//!     requests ready, of 2 milliseconds each, would make everyone wait for 800: threads take what is ready in turn. So
//!     it is on one thread too, as the permit of a long turn is kept until all that is ready was let in.
//! 11. A permit is taken before a plan is read, and left behind its turn. So few plans of a client are read, and one where
//!     their bodies are long: those wait with what waits for the lane. Who has a permit waits for nothing else.
//!
//! What is long is known before, by its size, or shows itself within the time of a short one, and then begins anew in the
//! lane. What isn't found out so is known behind it: who overran its turn takes the lane for the next one.
//!
//! ```text
//! door.run(|core| core.ledger.closed)                       a short look
//! door.turn_of(length, client, |core, until| ..).await      a turn: of work that can't be cut in the lane
//! door.own_turns(|core, until| ..).await                    the same of the server's own, which waits for no permit
//! door.turn_by(permit, |core, until| ..).await              a short turn behind what was read by its permit
//! door.turns_in_lane(permit, |core, _| ..).await            work of many turns, beside which no other long work goes on
//! ```

use crate::core::Core;
use crate::journal::{Durable, Ticket};
use crate::process;
use crate::serving::workers;
use crate::shares::Client;
use parking_lot::{Mutex, MutexGuard};
use std::collections::HashMap;
use std::sync::atomic::{AtomicUsize, Ordering::Relaxed};
use std::sync::Arc;
use std::time::{Duration, Instant};
use tokio::runtime::{Handle, RuntimeFlavor};
use tokio::sync::{watch, Notify, OwnedSemaphorePermit, Semaphore, SemaphorePermit};
use tokio::task::block_in_place;
use tokio::time::{sleep, timeout};

/// After so long others get a turn.
pub const TURN: Duration = Duration::from_millis(5);
/// Who took so much more has overrun its turn.
const MUCH: Duration = Duration::from_micros(2500);
/// The lane rests so many times as long as a turn took too much.
const REST: u32 = 2;
/// Shorter rests aren't worth a timer.
const SHORTEST_REST: Duration = Duration::from_millis(1);
/// Short turns that one client has at once: one that has the lock, and others that are read or wait for it.
const AT_ONCE: usize = 3;
/// Behind a turn that took so long others are let in before its client has another one.
const LONG_TURN: Duration = Duration::from_micros(500);
/// Bytes of a body whose plan is read by the permit for the lane.
const LONG_BODY: usize = 1 << 14;

/// How long work may hold the lock, or has held it.
#[derive(Clone, Copy, Debug, PartialEq, Eq)]
pub enum Length {
    /// For a turn.
    Short,
    /// For far longer.
    Long,
}

/// Whether work has come to its end in its turn.
#[derive(Clone, Copy, Debug, PartialEq, Eq)]
pub enum Turn {
    Done,
    More,
    /// It goes on once this is durable.
    Until(Ticket),
    /// It goes on once there is room for a long answer.
    Crowded,
    /// It goes on in the lane, as its next call may be long.
    Long,
}

impl Turn {
    /// How long the next one may be.
    pub fn next(self) -> Length {
        match self {
            Turn::Long => Length::Long,
            _ => Length::Short,
        }
    }
}

/// The permits of each client that has any, or waits for one.
struct Permits {
    most: usize,
    of: Mutex<HashMap<Client, Arc<Semaphore>>>,
}

impl Permits {
    async fn take(&self, client: &Client) -> OwnedSemaphorePermit {
        let own = {
            let mut of = self.of.lock();
            of.retain(|_, own| Arc::strong_count(own) > 1);
            of.entry(client.clone()).or_insert_with(|| Arc::new(Semaphore::new(self.most))).clone()
        };
        own.acquire_owned().await.expect("it is never closed")
    }
}

/// What a client has to have for a short turn, or for the lane, where it is taken.
pub struct Permit {
    pub client: Client,
    own: Option<(Length, OwnedSemaphorePermit)>,
}

impl Permit {
    /// One that is taken later.
    pub fn of(client: &Client) -> Permit {
        Permit { client: client.clone(), own: None }
    }

    pub fn leave(&mut self) {
        self.own = None;
    }
}

/// The lane, and the permit of its client.
pub struct InLane<'a> {
    _one: SemaphorePermit<'a>,
    _own: OwnedSemaphorePermit,
}

pub struct Door {
    core: Mutex<Core>,
    /// How many wait for the lock.
    waiting: AtomicUsize,
    permits: Permits,
    /// Who has its permit has the lane. It is fair.
    lane: Semaphore,
    for_lane: Permits,
    /// Until when the lane rests.
    rests: Mutex<Instant>,
    pub durable: Durable,
    moved: watch::Sender<u64>,
    due: Notify,
}

impl Door {
    pub fn new(core: Core) -> Door {
        let durable = core.journal.durable();
        let (waiting, moved) = (AtomicUsize::new(0), watch::channel(0).0);
        let permits_of = |most| Permits { most, of: Mutex::default() };
        let (permits, for_lane) = (permits_of(workers().saturating_sub(1).clamp(1, AT_ONCE)), permits_of(1));
        let (lane, rests) = (Semaphore::new(1), Mutex::new(Instant::now()));
        Door { core: Mutex::new(core), waiting, permits, lane, for_lane, rests, durable, moved, due: Notify::new() }
    }

    fn lock(&self) -> MutexGuard<'_, Core> {
        self.core.try_lock().unwrap_or_else(|| {
            self.waiting.fetch_add(1, Relaxed);
            let core = self.core.lock();
            self.waiting.fetch_sub(1, Relaxed);
            core
        })
    }

    /// Takes the lock, works, settles (closes where that is due, wakes the streams), and gives the result. Work of more
    /// than 5 ms is to be done in turns, each by a call of its own, with an await between them.
    pub fn run<R>(&self, work: impl FnOnce(&mut Core) -> R) -> R {
        let mut core = self.lock();
        let result = work(&mut core);
        let now = Instant::now();
        if core.has_to_look(now) {
            if let Some(resident) = process::resident() {
                core.watch_memory(resident);
            }
        }
        let settled = core.settle(now);
        drop(core);
        if settled.moved {
            self.ring();
        }
        if settled.is_due {
            self.due.notify_one();
        }
        result
    }

    /// One turn of work, which looks at the time that it gets.
    pub fn turn<R>(&self, work: impl FnOnce(&mut Core, Instant) -> R) -> R {
        self.measured(TURN, work).0
    }

    /// A client's permit, for a request with a body of so many bytes that isn't read yet.
    pub async fn permit(&self, client: &Client, bytes: usize) -> Permit {
        let own = match bytes > LONG_BODY {
            true => (Length::Long, self.for_lane.take(client).await),
            false => (Length::Short, self.permits.take(client).await),
        };
        Permit { client: client.clone(), own: Some(own) }
    }

    /// A short turn by a client's permit, which is taken where it isn't yet, and left.
    pub async fn turn_by<R>(&self, permit: &mut Permit, work: impl FnOnce(&mut Core, Instant) -> R) -> (R, Length) {
        if permit.own.is_none() {
            *permit = self.permit(&permit.client, 0).await;
        }
        let mut is_long = false;
        let turn = self.measured(TURN, |core, until| {
            let result = work(core, until);
            is_long = Instant::now() + TURN > until + LONG_TURN;
            result
        });
        if is_long {
            tokio::task::yield_now().await;
        }
        permit.leave();
        turn
    }

    /// The same of work that may be so long: in the lane, where it may be long. And how long it was.
    pub async fn turn_of<R>(
        &self,
        length: Length,
        client: &Client,
        work: impl FnOnce(&mut Core, Instant) -> R,
    ) -> (R, Length) {
        match length {
            Length::Short => self.turn_by(&mut Permit::of(client), work).await,
            Length::Long => {
                let _lane = self.lane(Permit::of(client)).await;
                aside(|| self.measured(TURN, work))
            }
        }
    }

    /// Work in turns, which keeps the lane from its first turn to its last one: that gives something. So other long work
    /// waits for all of it, and short work for one turn. The lane rests behind each of them, because together they are
    /// long.
    pub async fn turns_in_lane<R>(&self, permit: Permit, mut work: impl FnMut(&mut Core, Instant) -> Option<R>) -> R {
        let _lane = self.lane(permit).await;
        loop {
            if let (Some(result), _) = aside(|| self.measured(Duration::ZERO, &mut work)) {
                return result;
            }
            tokio::task::yield_now().await;
            self.rested().await;
        }
    }

    async fn in_lane(&self, Permit { client, own }: Permit) -> InLane<'_> {
        let _own = match own {
            Some((Length::Long, own)) => own,
            other => {
                drop(other);
                self.for_lane.take(&client).await
            }
        };
        InLane { _one: self.lane.acquire().await.expect("it is never closed"), _own }
    }

    /// Waits for the lane, and until it has rested.
    async fn lane(&self, permit: Permit) -> InLane<'_> {
        let lane = self.in_lane(permit).await;
        self.rested().await;
        lane
    }

    /// Waits until the lane has rested.
    async fn rested(&self) {
        let left = self.rests.lock().saturating_duration_since(Instant::now());
        if !left.is_zero() {
            sleep(left).await;
        }
    }

    /// Work that is given the time of a turn, and for how much of it the lane needn't rest.
    fn measured<R>(&self, free: Duration, work: impl FnOnce(&mut Core, Instant) -> R) -> (R, Length) {
        self.run(|core| {
            let begun = Instant::now();
            let result = work(core, begun + TURN);
            let now = Instant::now();
            let over = now.saturating_duration_since(begun + free);
            let is_alone = self.waiting.load(Relaxed) == 0;
            if !is_alone && over * REST >= SHORTEST_REST {
                let mut rests = self.rests.lock();
                *rests = (now + over * REST).max(*rests);
            }
            (result, if over > MUCH { Length::Long } else { Length::Short })
        })
    }

    /// The server's own work in turns, to its end.
    pub async fn own_turns(&self, mut work: impl FnMut(&mut Core, Instant) -> Turn) {
        while self.turn(&mut work) != Turn::Done {
            tokio::task::yield_now().await;
        }
    }

    /// Waits until what something rests on is durable, and this process may answer. Whoever tells it to anyone outside waits
    /// for this first.
    pub async fn until(&self, ticket: Ticket) {
        self.durable.until(ticket).await;
    }

    /// The same as long as the lease comes back within this time: whether it may be told.
    pub async fn until_within(&self, ticket: Ticket, patience: Duration) -> bool {
        while !self.durable.has(ticket) {
            if timeout(patience, self.until(ticket)).await.is_err() && !self.durable.has_lease() {
                return false;
            }
        }
        true
    }

    /// What rests on all that was done until now.
    pub fn all(&self) -> Ticket {
        self.lock().journal.all()
    }

    /// Changes after closed has moved or a feed of the server's own has ended, and each second. Who takes
    /// `borrow_and_update` before it looks misses nothing.
    pub fn moved(&self) -> watch::Receiver<u64> {
        self.moved.subscribe()
    }

    /// Wakes all streams.
    pub fn ring(&self) {
        self.moved.send_modify(|count| *count += 1);
    }

    /// Waits until a closing has to be done later than now.
    pub async fn due(&self) {
        self.due.notified().await;
    }
}

/// Works for long, by itself: a thread of a runtime with several hands on before what else it does.
fn aside<R>(work: impl FnOnce() -> R) -> R {
    match Handle::try_current().map(|runtime| runtime.runtime_flavor()) {
        Ok(RuntimeFlavor::MultiThread) => block_in_place(work),
        _ => work(),
    }
}

#[cfg(test)]
mod tests;
