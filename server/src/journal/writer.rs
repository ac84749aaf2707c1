//! The thread that writes. While it writes and syncs one batch, records gather in the next: group commit.
//!
//! ```text
//! core     add add        add add add         add
//! thread   [ batch 7    ] [ batch 8         ] [ batch 9 ..
//! told                    what rests on 7     what rests on 8
//! ```
//!
//! 1. One batch is on its way at a time. So what isn't durable is one batch, at the end of the last series. Of two, a
//!    crash may leave the second without the first.
//! 2. Where a batch can't be written the process ends at once, before anyone is told of it.
//! 3. Nothing is told without a fresh `lease`, which each batch renews, and where there is none, a beat.
//! 4. What a large transaction wrote is handed on from `recorder` to the disk, and never copied. So however much waits for
//!    a slow disk, it takes the memory that it took before its commit.

#[cfg(test)]
pub mod by_hand;
mod pieces;

use super::frame::Chain;
use super::lease::{Lease, Moment};
use super::rules::{holds, Rule};
use super::store::{Draft, Series, Store};
use super::Failure;
use crate::log::last_words;
use parking_lot::{Condvar, Mutex};
use pieces::{Pieces, ROOM};
use std::sync::atomic::{AtomicU64, Ordering::Relaxed};
use std::sync::{mpsc, Arc};
use std::time::{Duration, Instant};
use tokio::sync::watch;

/// A batch that takes so long is told of.
const STUCK: Duration = Duration::from_secs(10);
/// Where nothing is to be written a beat comes so often, and four times in a lease.
const BEAT: Duration = Duration::from_secs(1);

/// What something rests on: it is told once this batch is durable.
#[derive(Clone, Copy, Debug, PartialEq, Eq, PartialOrd, Ord)]
#[must_use]
pub struct Ticket(u64);

impl Default for Ticket {
    fn default() -> Ticket {
        Ticket::NONE
    }
}

impl Ticket {
    /// It tells nothing of the database, so that it needs no lease either.
    pub const FREE: Ticket = Ticket(0);
    /// It rests on no batch: the first one is durable before anyone asks.
    pub const NONE: Ticket = Ticket(1);
    /// It is never told.
    pub const NEVER: Ticket = Ticket(u64::MAX);
}

/// Who waits for tickets. Without a journal nobody has to.
#[derive(Clone)]
pub struct Durable(Option<(watch::Receiver<u64>, Arc<Lease>)>);

impl Durable {
    pub const NOTHING: Durable = Durable(None);

    /// Whether this process may answer.
    pub fn has_lease(&self) -> bool {
        self.0.as_ref().is_none_or(|(_, lease)| lease.is_fresh())
    }

    /// Whether it need not be waited for.
    pub fn has(&self, ticket: Ticket) -> bool {
        ticket == Ticket::FREE
            || self.0.as_ref().is_none_or(|(durable, _)| *durable.borrow() >= ticket.0) && self.has_lease()
    }

    /// Waits until the ticket's batch is durable, and this process may answer.
    pub async fn until(&self, ticket: Ticket) {
        let Some((_, lease)) = self.0.as_ref().filter(|_| !self.has(ticket)) else { return };
        self.written(ticket).await;
        lease.fresh().await;
    }

    /// Waits until the ticket's batch is durable.
    pub async fn written(&self, ticket: Ticket) {
        let Some((mut durable, _)) = self.0.clone() else { return };
        while *durable.borrow_and_update() < ticket.0 {
            if durable.changed().await.is_err() {
                // The thread has ended before it: so does the process, and nobody is told.
                std::future::pending::<()>().await;
            }
        }
    }
}

/// What the metrics tell of the writing.
#[derive(Debug, Default)]
pub struct Counts {
    pub bytes: AtomicU64,
    pub syncs: AtomicU64,
    pub nanoseconds: AtomicU64,
    /// Bytes since the last checkpoint was begun.
    pub since_checkpoint: AtomicU64,
    pub checkpoints: AtomicU64,
}

/// Where the writing goes on.
#[derive(Clone, Copy, Debug, PartialEq, Eq)]
pub struct Position {
    pub series: Series,
    /// The last batch, and how the series goes on behind it.
    pub number: u64,
    pub chain: Chain,
    pub mark: u64,
    /// Bytes behind the last checkpoint.
    pub bytes: u64,
}

/// A checkpoint that is begun. That it can't be begun is no reason to end.
pub type Drafted = Result<Box<dyn Draft>, Failure>;

/// What follows goes to a new series, which begins with this head.
struct Switch {
    /// Behind how many pieces of the batch it came.
    at: usize,
    head: Vec<u8>,
    draft: mpsc::Sender<Drafted>,
}

#[derive(Default)]
struct Queue {
    lines: Pieces,
    /// The number of the batch that gathers.
    number: u64,
    mark: u64,
    /// Whether the mark was raised since a batch was taken.
    is_raised: bool,
    switch: Option<Switch>,
    is_over: bool,
    /// Since when a batch is on its way.
    writing: Option<Instant>,
}

impl Queue {
    fn has_work(&self) -> bool {
        !self.lines.is_empty() || self.is_raised || self.switch.is_some() || self.is_over
    }
}

struct Shared {
    queue: Mutex<Queue>,
    /// There is something to write.
    gathered: Condvar,
    durable_mark: AtomicU64,
    durable: watch::Sender<u64>,
    lease: Arc<Lease>,
    counts: Arc<Counts>,
}

/// The core's end.
pub struct Writer {
    shared: Arc<Shared>,
}

impl Writer {
    /// Starts the thread behind what is there. It writes a batch at once: where the disk fails, that is found now.
    pub fn start(
        mut store: Box<dyn Store>,
        identity: String,
        mut position: Position,
        lines: &[u8],
    ) -> Result<Writer, Failure> {
        let (number, mark) = (position.number + 1, position.mark);
        let counts = Arc::new(Counts::default());
        counts.since_checkpoint.store(position.bytes, Relaxed);
        write(&mut *store, &mut position, number, mark, &[lines], &counts)?;
        // The first batch may have waited for the lease of another process.
        let (lease, begun) = (Arc::new(Lease::new(store.lease())), Moment::now());
        store.beat(false)?;
        lease.renew(begun);
        let queue = Queue { lines: Pieces::with_room(), number: number + 1, mark, ..Queue::default() };
        let shared = Arc::new(Shared {
            queue: Mutex::new(queue),
            gathered: Condvar::new(),
            durable_mark: AtomicU64::new(mark),
            durable: watch::channel(number).0,
            lease,
            counts,
        });
        Thread { shared: shared.clone(), store, identity, position }.start()?;
        Ok(Writer { shared })
    }

    pub fn durable(&self) -> Durable {
        Durable(Some((self.shared.durable.subscribe(), self.shared.lease.clone())))
    }

    pub fn counts(&self) -> Arc<Counts> {
        self.shared.counts.clone()
    }

    /// Whether a ticket's batch is durable.
    pub fn has(&self, ticket: Ticket) -> bool {
        *self.shared.durable.borrow() >= ticket.0
    }

    /// The mark that is durable.
    pub fn durable_mark(&self) -> u64 {
        self.shared.durable_mark.load(Relaxed)
    }

    /// Whether the disk takes far too long for a batch.
    pub fn is_stuck(&self) -> bool {
        self.shared.queue.lock().writing.is_some_and(|since| since.elapsed() > STUCK)
    }

    /// Adds lines to the batch that gathers. Behind the last one nothing is added.
    pub fn add<const PARTS: usize>(&self, parts: [Vec<u8>; PARTS]) -> Ticket {
        let mut queue = self.shared.queue.lock();
        if queue.is_over && holds(Rule::NothingIsCalledBehindTheEnd) {
            return Ticket::NEVER;
        }
        parts.into_iter().for_each(|part| queue.lines.add(part));
        self.shared.gathered.notify_one();
        Ticket(queue.number)
    }

    /// Raises the mark.
    pub fn raise(&self, mark: u64) -> Ticket {
        let mut queue = self.shared.queue.lock();
        if mark > queue.mark {
            queue.mark = mark;
            queue.is_raised = true;
            self.shared.gathered.notify_one();
        }
        // The batch that is on its way has the mark as it stood, unless it was raised since.
        Ticket(if queue.is_raised { queue.number } else { queue.number - 1 })
    }

    /// What is added from here on goes to a new series. Gives where its checkpoint comes from, once it has begun; there is
    /// none while one switch is still on its way.
    pub fn switch(&self, head: Vec<u8>) -> Option<mpsc::Receiver<Drafted>> {
        let (draft, drafts) = mpsc::channel();
        let mut queue = self.shared.queue.lock();
        if queue.switch.is_some() || queue.is_over {
            return None;
        }
        let at = queue.lines.cut();
        queue.switch = Some(Switch { at, head, draft });
        self.shared.gathered.notify_one();
        Some(drafts)
    }

    /// The last batch, with the mark where it really stands. Its ticket is there once nothing is answered any more, and the
    /// next process knows that.
    pub fn end(&self, mark: u64) -> Ticket {
        let mut queue = self.shared.queue.lock();
        queue.mark = mark;
        queue.is_over = true;
        self.shared.gathered.notify_one();
        Ticket(queue.number + 1)
    }
}

/// What was taken from the queue.
struct Work {
    lines: Pieces,
    number: u64,
    mark: u64,
    switch: Option<Switch>,
    is_last: bool,
}

struct Thread {
    shared: Arc<Shared>,
    store: Box<dyn Store>,
    identity: String,
    position: Position,
}

impl Thread {
    fn start(self) -> Result<(), Failure> {
        #[cfg(test)]
        if by_hand::is_held() {
            by_hand::start(self);
            return Ok(());
        }
        let spawned = std::thread::Builder::new().name("journal".into()).spawn(move || self.run());
        spawned.map(drop).map_err(|error| Failure::File("the journal's thread".into(), error))
    }

    fn run(mut self) {
        let mut spare = Pieces::with_room();
        loop {
            let mut work = loop {
                match self.take(&mut spare) {
                    Some(work) => break work,
                    None => self.beat(),
                }
            };
            let begun = Moment::now();
            if let Err(failure) = self.write(&mut work) {
                give_up(&failure);
            }
            self.shared.lease.renew(begun);
            self.is_durable(&work);
            if work.is_last {
                return self.end(work.number);
            }
            // A batch that takes as long as the lease leaves none.
            if !self.shared.lease.is_fresh() {
                self.beat();
            }
            spare = work.lines.emptied();
        }
    }

    fn beat(&mut self) {
        let begun = Moment::now();
        self.store.beat(false).unwrap_or_else(|failure| give_up(&failure));
        self.shared.lease.renew(begun);
    }

    fn end(&mut self, number: u64) {
        self.shared.lease.end();
        // Where it fails the next process waits the lease out.
        let _ = self.store.beat(true);
        self.shared.durable.send_replace(number + 1);
    }

    /// Waits for something to write. `None` where nothing came for a while.
    fn take(&self, spare: &mut Pieces) -> Option<Work> {
        let mut queue = self.shared.queue.lock();
        let beat = self.shared.lease.length().map_or(BEAT, |length| BEAT.min(length / 4));
        while !queue.has_work() {
            if self.shared.gathered.wait_for(&mut queue, beat).timed_out() {
                return None;
            }
        }
        let number = queue.number;
        queue.number += 1;
        queue.is_raised = false;
        queue.writing = Some(Instant::now());
        Some(Work {
            lines: std::mem::replace(&mut queue.lines, std::mem::take(spare)),
            number,
            mark: queue.mark,
            switch: queue.switch.take(),
            is_last: queue.is_over,
        })
    }

    fn write(&mut self, work: &mut Work) -> Result<(), Failure> {
        let Thread { shared, store, identity, position } = self;
        let counts = &shared.counts;
        let lines = work.lines.all();
        let Some(switch) = work.switch.take() else {
            return write(&mut **store, position, work.number, work.mark, &lines, counts);
        };
        let (before, behind) = lines.split_at(if holds(Rule::TheSwitchComesFirst) { switch.at } else { lines.len() });
        write(&mut **store, position, work.number, work.mark, before, counts)?;
        position.series.number += 1;
        position.chain = Chain::new(identity, position.series);
        counts.since_checkpoint.store(0, Relaxed);
        let lines = [&[&*switch.head], behind].concat();
        write(&mut **store, position, work.number, work.mark, &lines, counts)?;
        // Who asked for it may have ended.
        let _ = switch.draft.send(store.draft(position.series.number));
        Ok(())
    }

    fn is_durable(&self, work: &Work) {
        self.shared.queue.lock().writing = None;
        self.shared.durable_mark.store(work.mark, Relaxed);
        self.shared.durable.send_replace(work.number);
    }
}

/// Writes one batch, and syncs it.
fn write(
    store: &mut dyn Store,
    position: &mut Position,
    number: u64,
    mark: u64,
    lines: &[&[u8]],
    counts: &Counts,
) -> Result<(), Failure> {
    let mut head = Vec::new();
    position.chain.head(number, mark, lines, &mut head);
    let pieces = [&[&*head], lines].concat();
    let bytes: usize = pieces.iter().map(|piece| piece.len()).sum();
    let began = Instant::now();
    match bytes <= ROOM {
        true => store.append(position.series, &[&pieces.concat()])?,
        false => store.append(position.series, &pieces)?,
    }
    let passed = u64::try_from(began.elapsed().as_nanos()).unwrap_or(u64::MAX);
    counts.nanoseconds.fetch_add(passed, Relaxed);
    counts.syncs.fetch_add(1, Relaxed);
    counts.bytes.fetch_add(bytes as u64, Relaxed);
    counts.since_checkpoint.fetch_add(bytes as u64, Relaxed);
    position.number = number;
    Ok(())
}

/// Ends the process: nothing that isn't durable may be told any more.
fn give_up(failure: &Failure) -> ! {
    last_words(format!("the journal can't be written: {failure}. Nothing was told that isn't durable."));
    std::process::exit(1);
}
