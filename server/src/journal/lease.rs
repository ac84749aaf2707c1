//! Until when this process may answer, where another one may take its place.
//!
//! Each write that is confirmed renews the lease, from the moment at which that write was begun:
//!
//! ```text
//! owner        write begun .. confirmed
//!              |------- lease -------|                     nothing is answered any more
//! successor             epoch raised |----- 1.05 leases -----| answers
//! ```
//!
//! 1. It is asked after the call was made. So what the call has read is no older than what another server has told.
//! 2. Two clocks count: the steady one stands still while the machine sleeps, and the other one may be set back.
//! 3. Only durations of one machine are compared. Those of two may differ by a twentieth.

use super::rules::{holds, Rule};
use std::time::{Duration, Instant, SystemTime};
use tokio::sync::watch;

#[derive(Clone, Copy, Debug)]
pub struct Moment {
    steady: Instant,
    wall: SystemTime,
}

impl Moment {
    pub fn now() -> Moment {
        Moment { steady: Instant::now(), wall: SystemTime::now() }
    }

    fn is_past(self) -> bool {
        let now = Moment::now();
        now.steady >= self.steady || now.wall >= self.wall
    }
}

pub struct Lease {
    /// None where no other process may take its place.
    length: Option<Duration>,
    until: watch::Sender<Moment>,
}

impl Lease {
    /// One that begins with its first renewal.
    pub fn new(length: Option<Duration>) -> Lease {
        Lease { length, until: watch::channel(Moment::now()).0 }
    }

    pub fn length(&self) -> Option<Duration> {
        self.length
    }

    /// A write that was begun then is confirmed.
    pub fn renew(&self, begun: Moment) {
        if let Some(length) = self.length {
            self.until.send_replace(Moment { steady: begun.steady + length, wall: begun.wall + length });
        }
    }

    /// Nothing is answered from here on.
    pub fn end(&self) {
        self.until.send_replace(Moment::now());
    }

    pub fn is_fresh(&self) -> bool {
        self.length.is_none() || !self.until.borrow().is_past() || !holds(Rule::AnswersNeedTheLease)
    }

    /// Waits until this process may answer.
    pub async fn fresh(&self) {
        let mut until = self.until.subscribe();
        while !self.is_fresh() {
            if until.changed().await.is_err() {
                std::future::pending::<()>().await;
            }
        }
    }
}

#[cfg(test)]
mod tests {
    use super::*;
    use std::thread::sleep;

    const SHORT: Duration = Duration::from_millis(1);
    const LONG: Duration = Duration::from_secs(3600);

    /// Whether a lease is fresh that was renewed by a write that was begun then, two milliseconds later.
    fn is_fresh_behind(length: Duration, begun: Moment) -> bool {
        let lease = Lease::new(Some(length));
        assert!(!lease.is_fresh());
        sleep(2 * SHORT);
        lease.renew(begun);
        lease.is_fresh()
    }

    #[test]
    fn it_counts_from_when_the_write_was_begun_and_not_from_its_confirmation() {
        assert!(is_fresh_behind(LONG, Moment::now()));
        assert!(!is_fresh_behind(SHORT, Moment::now()));
        let lease = Lease::new(Some(LONG));
        lease.renew(Moment::now());
        lease.end();
        assert!(!lease.is_fresh() && Lease::new(None).is_fresh());
    }

    #[test]
    fn either_clock_ends_it() {
        let now = Moment::now();
        // The machine has slept, so that the steady clock stood still, or the other one was set back.
        assert!(!is_fresh_behind(LONG, Moment { wall: now.wall - 2 * LONG, ..now }));
        assert!(!is_fresh_behind(SHORT, Moment { wall: now.wall + LONG, ..now }));
    }

    #[tokio::test]
    async fn who_waits_goes_on_with_the_next_renewal() {
        let lease = Lease::new(Some(LONG));
        let waits = tokio::time::timeout(Duration::from_millis(20), lease.fresh());
        assert!(waits.await.is_err());
        tokio::join!(lease.fresh(), async { lease.renew(Moment::now()) });
    }
}
