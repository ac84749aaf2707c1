//! What tests share: a core without sockets, and numbers that are drawn.

use crate::api::plan::Plan;
use crate::api::remembered::{Keep, Remembered};
use crate::api::run::{End, Pace, Running, Stop};
use crate::closing;
use crate::connections::Connections;
use crate::core::Core;
use crate::door::{Door, Length, Turn};
use crate::gate::{Gate, Who};
use crate::http::{Request, Response};
use crate::journal::Ticket;
use crate::lines::Lines;
use crate::log::{Level, Log};
use crate::metrics::Metrics;
use crate::options::{self, Asked, Options};
use crate::refusal::Refusal;
use crate::reports;
use crate::routes::{self, Server};
use crate::seats::{Session, SEATS};
use crate::session;
use crate::shares::{Client, Table};
use crate::streams::Streams;
use crate::tasks::Tasks;
use std::collections::VecDeque;
use std::future::{ready, Future};
use std::io::Write;
use std::path::PathBuf;
use std::pin::Pin;
use std::sync::atomic::{AtomicU64, Ordering};
use std::sync::{Arc, LazyLock, Mutex};
use std::time::{Duration, Instant};
use tokio::sync::watch;

/// Runs a plan, and lets nobody in between two turns.
pub fn run<'p>(core: &mut Core, plan: &'p Plan<'_>, pace: Pace, keep: Option<&Keep<'_>>) -> Result<End<'p>, Stop> {
    let mut running = Running::begin(core, plan, pace)?;
    loop {
        if let Some(end) = running.turn(core, keep)? {
            return Ok(end);
        }
    }
}

/// The identity of a test's database.
pub const IDENTITY: &str = "0123456789abcdef";

/// A client of loopback that may do everything.
pub static LOOPBACK: LazyLock<Client> = LazyLock::new(|| Client::new([127, 0, 0, 1].into(), &Who::anyone()));

pub fn options(words: &[&str]) -> Options {
    match options::read(words.iter().map(|word| (*word).into())).expect("options") {
        Asked::Serve(options) => *options,
        other => panic!("{other:?}"),
    }
}

/// What the log has said.
#[derive(Clone, Default)]
pub struct Said(Arc<Mutex<Vec<u8>>>);

impl Said {
    pub fn text(&self) -> String {
        String::from_utf8(self.0.lock().expect("no test panics with it").clone()).expect("text")
    }
}

impl Write for Said {
    fn write(&mut self, data: &[u8]) -> std::io::Result<usize> {
        self.0.lock().expect("no test panics with it").extend_from_slice(data);
        Ok(data.len())
    }

    fn flush(&mut self) -> std::io::Result<()> {
        Ok(())
    }
}

/// A core with these options, and what its log says.
pub fn core_and_log(words: &[&str]) -> (Core, Said) {
    let said = Said::default();
    let log = Log::to(Level::Info, false, Box::new(said.clone()));
    (Core::new(&options(words), IDENTITY.into(), Arc::new(log)).expect("it opens"), said)
}

pub fn core(words: &[&str]) -> Core {
    core_and_log(words).0
}

/// A server with these options that listens nowhere.
pub fn server(words: &[&str]) -> Arc<Server> {
    server_of(core(words), words)
}

/// The same of this core.
pub fn server_of(core: Core, words: &[&str]) -> Arc<Server> {
    let options = options(words);
    Arc::new(Server {
        identity: IDENTITY.into(),
        door: Door::new(core),
        gate: Gate::new(&options, options.port).expect("a gate"),
        log: Arc::new(Log::to(Level::Error, false, Box::new(Said::default()))),
        connections: Connections::new(options.max_connections, options.patience),
        bodies: Table::of_bytes(
            options.max_message.saturating_mul(usize::from(SEATS)),
            "bodies",
            "bytes of bodies that aren't answered",
        ),
        reports: Table::of_bytes(reports::UNREAD, "reports", "bytes of reports that aren't read"),
        unread: Table::of_bytes(session::UNREAD, "answers", "bytes of answers that aren't read"),
        streams: Streams::new(options.max_feeds),
        metrics: Metrics::default(),
        remembered: Remembered::new(options.remember, VecDeque::new()),
        tasks: Tasks::default(),
        answers: Table::of_places(SEATS.into(), "answers", "answers that wait for their readers"),
        is_ending: watch::channel(false).0,
        options,
    })
}

/// What a request is told that has passed the gate. Its method and target are a line.
pub async fn ask(
    server: &Arc<Server>,
    who: &Who,
    line: &str,
    headers: &[(&str, &str)],
    body: &str,
) -> Result<Response, Refusal> {
    routes::handle(server, Request::of(server, who, line, headers, body)).await
}

/// The status of an answer, and the name of a refusal.
pub fn status(answered: Result<Response, Refusal>) -> (u16, &'static str) {
    answered.map_or_else(|refusal| (refusal.status, refusal.error), |response| (response.status, ""))
}

/// A session of someone who may do everything.
pub fn session(core: &mut Core) -> Session {
    session_of(core, 1)
}

/// The same of one of several clients, as one alone doesn't get all seats.
pub fn session_of(core: &mut Core, client: u8) -> Session {
    core.seats.take(([127, 0, 0, client], 1).into(), Who::anyone()).expect("a seat is free")
}

pub fn end(core: &mut Core, session: &Session) {
    let far = Instant::now() + Duration::from_secs(60);
    assert_eq!(core.end(session.seat, far, Length::Long), Turn::Done);
}

/// The answers to some lines as they come, in one turn.
pub fn texts(core: &mut Core, session: &mut Session, text: &str) -> String {
    let mut lines = Lines::new(text.as_bytes().to_vec());
    let far = Instant::now() + Duration::from_secs(60);
    loop {
        match lines.turn(core, session, far) {
            Ok(Turn::Until(ticket)) => wait_for(core, ticket),
            told => {
                assert_eq!(told, Ok(Turn::Done));
                return String::from_utf8(lines.answers).expect("text");
            }
        }
    }
}

/// Waits until it is durable.
pub fn wait_for(core: &Core, ticket: Ticket) {
    let (durable, end) = (core.journal.durable(), Instant::now() + Duration::from_secs(60));
    while !durable.has(ticket) {
        assert!(Instant::now() < end, "it isn't durable");
        std::thread::sleep(Duration::from_millis(1));
    }
}

/// The same without what stands before each answer, and without a fault's sentence.
pub fn answers(core: &mut Core, session: &mut Session, text: &str) -> Vec<String> {
    let told = texts(core, session, text);
    let short = |line: &str| match line.strip_prefix("fault ") {
        Some(_) => line.splitn(5, ' ').take(4).collect::<Vec<_>>().join(" "),
        None => line.rsplit_once(" => ").map_or(line, |(_, answer)| answer).to_string(),
    };
    told.lines().map(short).collect()
}

/// The same, and then closing as far as transactions are decided.
pub fn say(core: &mut Core, session: &mut Session, text: &str) -> Vec<String> {
    let told = answers(core, session, text);
    core.settle(Instant::now());
    told
}

/// Transactions of one row each.
pub fn put(core: &mut Core, session: &mut Session, rows: &[(&str, &str)]) {
    for (key, value) in rows {
        let told = say(core, session, &format!("begin\nput . {key} {value}\ncommit .\n"));
        assert_eq!(told, ["started", "written", "committed 1"]);
    }
}

/// The work of a second.
pub fn tidy(core: &mut Core) {
    let far = Instant::now() + Duration::from_secs(60);
    for step in closing::STEPS {
        assert_eq!(step(core, far), Turn::Done);
    }
}

/// Whether work still waits, once it was begun or went on.
pub async fn waits<T>(work: Pin<&mut impl Future<Output = T>>) -> bool {
    tokio::select! {
        biased;
        _ = work => false,
        () = ready(()) => true,
    }
}

/// Nanoseconds that this thread had a processor, so that a busy machine changes little.
pub fn processor_time() -> u64 {
    let text = std::fs::read_to_string("/proc/thread-self/schedstat").expect("Linux tells it");
    text.split(' ').next().and_then(|word| word.parse().ok()).expect("a number")
}

/// Numbers that look drawn, the same for each seed (Marsaglia's xorshift).
pub struct Dice(u64);

impl Dice {
    pub fn new(seed: u64) -> Dice {
        Dice(seed.wrapping_mul(0x9e37_79b9_7f4a_7c15) | 1)
    }

    /// One below a bound.
    pub fn below(&mut self, bound: u64) -> u64 {
        self.0 ^= self.0 << 13;
        self.0 ^= self.0 >> 7;
        self.0 ^= self.0 << 17;
        (self.0 >> 11) % bound
    }

    pub fn one_in(&mut self, bound: u64) -> bool {
        self.below(bound) == 0
    }

    pub fn of<'a, T>(&mut self, all: &'a [T]) -> &'a T {
        &all[self.below(all.len() as u64) as usize]
    }

    /// Some of these pieces, fewer than `most`, one behind another.
    pub fn some(&mut self, pieces: &[&[u8]], most: u64) -> Vec<u8> {
        (0..self.below(most)).flat_map(|_| self.of(pieces).to_vec()).collect()
    }

    /// Tries again and again: for as many seconds as FUZZ_SECONDS says, or for two. With FUZZ_SEED other numbers are drawn.
    pub fn each(&mut self, mut attempt: impl FnMut(&mut Dice)) {
        let said = |name| std::env::var(name).ok().and_then(|word| word.parse().ok());
        if let Some(seed) = said("FUZZ_SEED") {
            *self = Dice::new(self.0 ^ seed);
        }
        let end = Instant::now() + Duration::from_secs(said("FUZZ_SECONDS").unwrap_or(2));
        while Instant::now() < end {
            (0..100).for_each(|_| attempt(self));
        }
    }
}

/// An empty folder of a test's own. It stays in the system's temporary folder.
pub fn folder() -> PathBuf {
    let path = file(b"");
    std::fs::remove_file(&path).expect("it is there");
    std::fs::create_dir(&path).expect("it is made");
    path
}

/// A file of a test's own, with this text. It stays in the system's temporary folder.
pub fn file(text: &[u8]) -> PathBuf {
    static COUNT: AtomicU64 = AtomicU64::new(0);
    let name = format!("ripsawbean-test-{}-{}", std::process::id(), COUNT.fetch_add(1, Ordering::Relaxed));
    let path = std::env::temp_dir().join(name);
    std::fs::write(&path, text).expect("it is written");
    path
}
