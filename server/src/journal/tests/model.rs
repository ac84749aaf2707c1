//! Random lives of a server over a disk that fails and tears, judged by one database that lives through all of them
//! (`ghost`). With all rules nothing is contradicted, and with each one left out something is.
//!
//! Sessions make lines, writers with keys make transactions and make them again, consumers' names move, checkpoints are
//! made, and a crash comes at any step. The journal's thread is moved by hand, so a seed tells the whole run.

mod others;
mod rules;
mod sessions;

use super::disk::{Disk, Left};
use super::ghost::{events_in, Ghost, Known};
use super::*;
use crate::journal::writer::by_hand;
use crate::lines::Lines;
use crate::testing::Dice;
use std::collections::{BTreeMap, BTreeSet, VecDeque};
use std::ops::Range;

const HOUR: Duration = Duration::from_secs(3600);
const SESSIONS: usize = 3;
const KEYS: [&str; 5] = ["a", "b", "c", "d", "e"];
/// What a session was answered, and rests on something.
struct Untold {
    events: Range<u64>,
    rests: Ticket,
}

struct Client {
    session: Session,
    untold: VecDeque<Untold>,
    /// A line whose call waits for the mark.
    waiting: Option<(Lines, Ticket)>,
    feeds: Vec<u64>,
}

/// What is told of a name, once it is durable.
enum Fact {
    Generation(u64),
    Stored(&'static str, u64),
}

/// A key's request that was run.
struct Done {
    timestamp: u64,
    form: Form,
    rests: Ticket,
}

/// How far a checkpoint has come.
enum Stage {
    Switching,
    Copying,
    /// It is whole, and rests on this.
    Written(Ticket),
}

/// One life.
struct Life {
    core: Core,
    remembered: Remembered,
    clients: Vec<Client>,
    /// What requests with keys were answered.
    answers: VecDeque<Untold>,
    facts: VecDeque<(Ticket, Fact)>,
    making: Option<(Making, Stage)>,
    known: Known,
    /// The first event that isn't of an earlier life.
    first: u64,
    /// On what commits and collections rest.
    commits: Vec<(u64, Ticket)>,
    collections: Vec<(u64, Ticket)>,
    is_ending: Option<Ticket>,
}

pub struct Model {
    dice: Dice,
    disk: Disk,
    ghost: Ghost,
    life: Option<Life>,
    values: u64,
    lives: usize,
    /// Told of names: the last generation, and what was stored.
    generation: u64,
    stored: BTreeMap<&'static str, u64>,
    requests: BTreeMap<String, (String, Vec<Done>)>,
    repeated: usize,
}

type Judged = Result<(), String>;

impl Model {
    fn new(seed: u64) -> Model {
        Model {
            dice: Dice::new(seed),
            disk: Disk::default(),
            ghost: Ghost::new(),
            life: None,
            values: 0,
            lives: 0,
            generation: 0,
            stored: BTreeMap::new(),
            requests: BTreeMap::new(),
            repeated: 0,
        }
    }

    /// A whole run: what is contradicted.
    fn run(&mut self, steps: usize) -> Judged {
        self.begin()?;
        for _ in 0..steps {
            self.step()?;
        }
        self.crash()
    }

    fn life(&mut self) -> &mut Life {
        self.life.as_mut().expect("a life has begun")
    }

    fn step(&mut self) -> Judged {
        match self.dice.below(100) {
            0..=49 => self.line(),
            50..=64 => drop(by_hand::take()),
            65..=79 => return self.write(),
            80..=85 => return self.request(),
            86..=90 => self.name()?,
            91..=92 => self.tidy(),
            93..=97 => self.checkpoint()?,
            98 => return self.end_or_crash(),
            _ => {}
        }
        self.tell();
        Ok(())
    }

    // ---- lives

    fn begin(&mut self) -> Judged {
        self.disk.mend();
        // Each start draws another identity, which counts for a new database alone.
        let identity = if self.lives == 0 { IDENTITY.to_string() } else { format!("{:016x}", self.lives) };
        let recovered = recovered(&self.disk, &identity);
        let mut recovered = recovered.map_err(|error| format!("life {} doesn't begin: {error}", self.lives))?;
        let remembered = Remembered::new(HOUR, std::mem::take(&mut recovered.answers));
        let log = Arc::new(Log::to(Level::Error, false, Box::new(std::io::sink())));
        let words = ["--history", "0", "--max-age", "3600"];
        let mut core = Core::recovered(recovered, &options(&words), log);
        if core.identity != IDENTITY {
            return Err(format!("the identity is {}", core.identity));
        }
        if self.lives > 0 {
            self.ghost.crash(core.ledger.closed)?;
        }
        self.lives += 1;
        let clients = (0..SESSIONS)
            .map(|_| Client { session: session(&mut core), untold: VecDeque::new(), waiting: None, feeds: Vec::new() })
            .collect();
        let first = core.transcript.first;
        self.life = Some(Life {
            core,
            remembered,
            clients,
            answers: VecDeque::new(),
            facts: VecDeque::new(),
            making: None,
            known: Known::default(),
            first,
            commits: Vec::new(),
            collections: Vec::new(),
            is_ending: None,
        });
        self.look_at_names()?;
        let closed = self.life().core.ledger.closed;
        for line in [format!("scanat {closed} - -\n"), "stats\n".to_string()] {
            self.call(0, line);
        }
        Ok(())
    }

    fn crash(&mut self) -> Judged {
        let left = Left::drawn(&mut self.dice);
        if by_hand::is_writing() && !self.dice.one_in(4) {
            self.disk.fail(self.dice.below(2) as usize, left);
            // What it says is told to nobody any more.
            let _ = by_hand::finish();
        }
        self.die()
    }

    /// The life is over: it is judged, and the next one begins.
    fn die(&mut self) -> Judged {
        let mut life = self.life.take().expect("a life has begun");
        let durable = life.core.journal.durable();
        let (commits, collections) = recorded(&self.disk);
        let is_there = |all: &[(u64, Ticket)], also: &BTreeSet<u64>| {
            let by_ticket = all.iter().filter(|(_, ticket)| durable.has(*ticket)).map(|(at, _)| *at);
            by_ticket.chain(also.iter().copied()).collect::<BTreeSet<u64>>()
        };
        life.known.commits = is_there(&life.commits, &commits);
        life.known.collections = is_there(&life.collections, &collections);
        let (text, _) = life.core.transcript.piece(life.first, u64::MAX, usize::MAX).expect("all are kept");
        let events = events_in(std::str::from_utf8(&text).expect("text"));
        if life.core.shouts > 0 {
            return Err("the server wondered".into());
        }
        for (_, all) in self.requests.values_mut() {
            all.retain(|done| durable.has(done.rests) || commits.contains(&done.timestamp));
        }
        self.ghost.live(&events, &life.known)?;
        drop(life);
        self.begin()
    }

    fn end_or_crash(&mut self) -> Judged {
        let life = self.life();
        if life.is_ending.is_none() && self.dice.one_in(3) {
            let life = self.life();
            // As the server does: no transaction begins any more.
            life.core.limits.is_draining = true;
            let greatest = life.core.ledger.greatest.max(life.core.ledger.closed);
            life.is_ending = Some(life.core.journal.end(greatest));
            return Ok(());
        }
        self.crash()
    }

    /// Writes what is on its way. Now and then the disk fails, and then the process ends.
    fn write(&mut self) -> Judged {
        if self.dice.one_in(60) && by_hand::is_writing() {
            let left = Left::drawn(&mut self.dice);
            self.disk.fail(self.dice.below(2) as usize, left);
        }
        let written = by_hand::finish();
        self.disk.mend();
        if written.is_err() {
            return self.die();
        }
        self.tell();
        let life = self.life();
        match life.is_ending.is_some_and(|last| life.core.journal.durable().has(last)) {
            true => self.die(),
            false => Ok(()),
        }
    }

    /// Everyone is told what is durable, each session in its order.
    fn tell(&mut self) {
        let life = self.life.as_mut().expect("a life has begun");
        let durable = life.core.journal.durable();
        let sessions = life.clients.iter_mut().map(|client| &mut client.untold);
        for untold in sessions.chain([&mut life.answers]) {
            while untold.front().is_some_and(|first| durable.has(first.rests)) {
                life.known.told.extend(untold.pop_front().into_iter().flat_map(|first| first.events));
            }
        }
        while life.facts.front().is_some_and(|(rests, _)| durable.has(*rests)) {
            let Some((_, fact)) = life.facts.pop_front() else { break };
            match fact {
                Fact::Generation(generation) => self.generation = self.generation.max(generation),
                Fact::Stored(name, stored) => drop(self.stored.insert(name, stored)),
            }
        }
    }
}

/// Timestamps of commits, of keys' answers, and of collections, in the whole batches of a disk.
fn recorded(disk: &Disk) -> (BTreeSet<u64>, BTreeSet<u64>) {
    let (mut commits, mut collections) = (BTreeSet::new(), BTreeSet::new());
    for (series, bytes) in disk.all() {
        let mut batches = frame::Batches::new(bytes.as_slice(), series);
        while let Ok(Some(batch)) = batches.next() {
            for line in String::from_utf8_lossy(batch.lines).lines() {
                let words: Vec<&str> = line.split(' ').collect();
                match words[..] {
                    ["0", "commit", at] => drop(commits.insert(at.parse().expect("a timestamp"))),
                    ["0", "collect", at] => drop(collections.insert(at.parse().expect("a timestamp"))),
                    [.., note] if note.starts_with("key/") => {
                        commits.extend(note.split('/').nth(4).and_then(|at| at.parse::<u64>().ok()));
                    }
                    _ => {}
                }
            }
        }
    }
    (commits, collections)
}
