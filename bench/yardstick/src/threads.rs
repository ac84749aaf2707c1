//! Calls by threads at once, of one engine under a `std::sync::Mutex` or under a lock of its own: those of
//! `bench/bench_calls`, so that they can be compared. It prints how many nanoseconds passed from the first call to the end
//! of the last, how many calls were refused, how many rows were told, and how long the longest call took, or 0 where calls
//! weren't timed.
use crate::barging::Barging;
use crate::calls::{Cmd, Kind, Reply, Sink, Span};
use crate::engine::Engine;
use std::hint::black_box;
use std::sync::atomic::{AtomicU64, Ordering::SeqCst};
use std::sync::Mutex;
use std::thread::{scope, yield_now};
use std::time::{Duration, Instant};

/// How many keys there are: as many as twelve drawn bits tell apart.
const KEYS: u64 = 4096;
/// How many transactions a seat makes before it closes and polls.
const BURST: u64 = 16;
/// How many calls those make with the closing and the poll.
const ROUND: u64 = 4 * BURST + 2;
/// How far below the newest timestamp a seat closes.
const BEHIND: u64 = 256;
/// The timestamp at which all keys were put.
const LOADED: u64 = 1;
/// How many messages a poll asks for.
const MESSAGES: u64 = 100;

/// What one thread counts of the replies to it.
#[derive(Default)]
struct Tally {
    refused: u64,
    told: u64,
}

impl Sink for Tally {
    fn value(&mut self, value: &[u8]) {
        black_box(value);
    }
    fn row(&mut self, key: &[u8], value: &[u8]) {
        black_box((key, value));
    }
    fn change(&mut self, _: u64, key: &[u8], after: Option<&[u8]>) {
        self.told += 1;
        black_box((key, after));
    }
    fn resolved(&mut self, ts: u64) {
        black_box(ts);
    }
}

/// Where threads wait for each other, so that none begins alone, and draw their timestamps. These rise with time, so
/// that which thread gets ahead doesn't change what a call costs.
struct Gate {
    arrived: AtomicU64,
    next: AtomicU64,
}

impl Gate {
    fn pass(&self, all: u64) {
        self.arrived.fetch_add(1, SeqCst);
        while self.arrived.load(SeqCst) < all {
            yield_now();
        }
    }
}

/// A line of drawn keys.
struct Dice(u64);

impl Dice {
    fn key(&mut self) -> [u8; 8] {
        self.0 = self.0.wrapping_mul(6364136223846793005).wrapping_add(1442695040888963407);
        (self.0 >> 52).to_be_bytes()
    }
}

/// What keeps threads apart.
trait Lock: Sync {
    fn step(&self, seat: u8, cmd: Cmd, tally: &mut Tally) -> Reply;
}

impl Lock for Mutex<Engine> {
    fn step(&self, seat: u8, cmd: Cmd, tally: &mut Tally) -> Reply {
        self.lock().expect("no thread panics").step(seat, cmd, tally)
    }
}

impl Lock for Barging<Engine> {
    fn step(&self, seat: u8, cmd: Cmd, tally: &mut Tally) -> Reply {
        self.with(|engine| engine.step(seat, cmd, tally))
    }
}

struct Caller<'a, L> {
    engine: &'a L,
    gate: &'a Gate,
    seat: u8,
    tally: Tally,
    /// How long the longest call took, if calls are timed.
    longest: Option<Duration>,
}

impl<L: Lock> Caller<'_, L> {
    fn call(&mut self, cmd: Cmd) {
        let from = self.longest.map(|_| Instant::now());
        let reply = self.engine.step(self.seat, cmd, &mut self.tally);
        self.longest = from.map(|from| from.elapsed()).max(self.longest);
        self.tally.refused += u64::from(reply.is_refusal());
    }

    fn round(&mut self, dice: &mut Dice) {
        let mut ts = 0;
        for _ in 0..BURST {
            ts = self.gate.next.fetch_add(1, SeqCst);
            self.call(Cmd::Begin(ts));
            self.call(Cmd::Get(ts, &dice.key()));
            self.call(Cmd::Put(ts, &dice.key(), b"value"));
            self.call(Cmd::Commit(ts));
        }
        self.call(Cmd::Close(ts.saturating_sub(BEHIND)));
        self.call(Cmd::Poll(u64::from(self.seat) + 1, MESSAGES));
    }

    fn work(mut self, threads: u64, rounds: u64) -> (Instant, Instant, Tally, Duration) {
        let mut dice = Dice(u64::from(self.seat));
        self.gate.pass(threads);
        let from = Instant::now();
        for _ in 0..rounds {
            self.round(&mut dice);
        }
        (from, Instant::now(), self.tally, self.longest.unwrap_or_default())
    }
}

/// All keys, put by one transaction that is closed, and a feed for each thread of its part of all keys.
fn loaded(threads: u64) -> Engine {
    let (mut engine, mut tally) = (Engine::new(1024), Tally::default());
    let mut call = |seat: u64, cmd: Cmd| engine.step(seat as u8, cmd, &mut tally);
    call(0, Cmd::Begin(LOADED));
    for number in 0..KEYS {
        call(0, Cmd::Put(LOADED, &number.to_be_bytes(), b"value"));
    }
    call(0, Cmd::Commit(LOADED));
    call(0, Cmd::Close(LOADED));
    let bound = |seat: u64| (KEYS * seat / threads).to_be_bytes();
    for seat in 0..threads {
        let span = Span { lo: &bound(seat), hi: &bound(seat + 1) };
        call(seat, Cmd::Open(span, LOADED, Kind { initial: false, gap: None }));
    }
    engine
}

pub fn run(lock: &str, threads: u64, calls: u64, timed: bool) {
    match lock {
        "barging" => measure(Barging::new(loaded(threads)), threads, calls, timed),
        _ => measure(Mutex::new(loaded(threads)), threads, calls, timed),
    }
}

fn measure(engine: impl Lock, threads: u64, calls: u64, timed: bool) {
    let (engine, gate) = (&engine, &Gate { arrived: AtomicU64::new(0), next: AtomicU64::new(LOADED + 1) });
    let (rounds, longest) = (calls / ROUND / threads, timed.then_some(Duration::ZERO));
    let parts: Vec<_> = scope(|s| {
        let caller = |seat: u64| Caller { engine, gate, seat: seat as u8, tally: Tally::default(), longest };
        let all: Vec<_> = (0..threads)
            .map(|seat| (s, caller(seat)))
            .map(|(s, one)| s.spawn(move || one.work(threads, rounds)))
            .collect();
        all.into_iter().map(|one| one.join().expect("no thread panics")).collect()
    });
    let from = parts.iter().map(|part| part.0).min().expect("a thread");
    let to = parts.iter().map(|part| part.1).max().expect("a thread");
    let refused: u64 = parts.iter().map(|part| part.2.refused).sum();
    let told: u64 = parts.iter().map(|part| part.2.told).sum();
    let longest = parts.iter().map(|part| part.3).max().expect("a thread");
    println!("{} {refused} {told} {}", (to - from).as_nanos(), longest.as_nanos());
}
