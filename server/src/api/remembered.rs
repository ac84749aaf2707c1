//! Answers to requests with an `Idempotency-Key`, so that a client that lost its answer can ask again.
//!
//! A key stands for one transaction of one token. The same request again, within `--remember` seconds, is given the
//! first one's answer, and makes no call. Another request with its key is refused.
//!
//! ```text
//! key k, put a 1     200 timestamp 5
//! key k, put a 1     200 timestamp 5, Idempotent-Replayed: true
//! key k, put a 2     422 idempotencykey
//! ```
//!
//! 1. Remembered is what has committed rows. Whatever failed or only read has left nothing, and is run again.
//! 2. It stays for its time, whatever others do. Each client has its share of `MOST_BYTES` (`shares`): where that leaves
//!    no room for an answer, its transaction isn't committed.
//! 3. Of two requests with one key at once, the second waits for the first.
//! 4. An answer is remembered under the lock of its commit, and stands in the journal in that commit's batch. So a
//!    restart and a checkpoint find the one where they find the other.
//! 5. Of a text of more than `LONGEST` bytes what is made instead is remembered: its head, and a digest.

use super::run::{Committed, Stop};
use super::transact::head_of;
use super::Answer;
use crate::door::Permit;
use crate::http::Request;
use crate::journal::{Answered, Form};
use crate::refusal::Refusal;
use crate::shares::{Client, Held, Table as Shared};
use parking_lot::Mutex;
use sha2::{Digest, Sha256};
use std::collections::{HashMap, HashSet, VecDeque};
use std::sync::Arc;
use std::time::{Duration, Instant};
use tokio::sync::watch;

/// Bytes that all answers may count: 1,500 of 200 bytes a second have room in one client's share for a minute.
pub const MOST_BYTES: usize = 72 << 20;
/// What an answer counts beside its text: no less than it takes in the table.
const ENTRY_BYTES: usize = 400;
/// Bytes of a text that is remembered as it is.
const LONGEST: usize = 4096;
const LONGEST_KEY: usize = 64;
/// Answers, and bytes of them, that are copied while the table is held.
const SOME: usize = 1000;
const SOME_BYTES: usize = 1 << 20;

pub struct Remembered {
    /// Milliseconds for which an answer is remembered.
    time: u64,
    began: Instant,
    /// Milliseconds that servers of this database have run before, as far as answers tell.
    before: u64,
    room: Arc<Shared>,
    table: Mutex<Table>,
}

/// By the digest of a token's name and a key.
#[derive(Default)]
struct Table {
    /// Requests that run. The end of one drops its sender.
    running: HashMap<u128, watch::Sender<()>>,
    /// The number of each answer.
    numbers: HashMap<u128, u64>,
    /// Answers with what each counts, the oldest first.
    answered: VecDeque<(Answered, Held)>,
    /// How many were forgotten: the number of the oldest.
    forgotten: u64,
}

/// Who asks, and what, where it has a key.
pub struct Asked {
    pub permit: Permit,
    key: Option<Key>,
}

#[derive(Clone, Copy)]
struct Key {
    named: u128,
    asked: u128,
}

impl Asked {
    /// By the token's name, its key, and the parts of its request.
    pub fn new(client: &Client, who: &str, key: &str, request: &[&[u8]]) -> Asked {
        let key = Key { named: digest(&[who.as_bytes(), key.as_bytes()]), asked: digest(request) };
        Asked { permit: Permit::of(client), key: Some(key) }
    }
}

/// What becomes of a request.
pub enum Begun<'a> {
    Told(Answer),
    Runs(Running<'a>),
}

enum Found {
    Answer(Answer),
    Running(watch::Receiver<()>),
    Nothing,
}

impl Remembered {
    /// With what earlier servers of the database have answered, the oldest first.
    pub fn new(time: Duration, answers: VecDeque<Answered>) -> Remembered {
        let (began, before) = (Instant::now(), answers.iter().map(|one| one.time).max().unwrap_or(0));
        let time = u64::try_from(time.as_millis()).unwrap_or(u64::MAX);
        let room = Shared::of_places(MOST_BYTES, "remembered", "bytes of remembered answers");
        // Of a key's answers the last one counts.
        let mut keys = HashSet::new();
        let mut last: Vec<Answered> = answers.into_iter().rev().filter(|one| keys.insert(one.named)).collect();
        last.sort_by_key(|one| one.time);
        let mut table = Table::default();
        for one in last.into_iter().filter(|one| before - one.time < time) {
            let mut held = room.begin(&Client::SERVER);
            held.set(bytes_of(&one.form));
            table.add(one, held);
        }
        Remembered { time, began, before, room, table: Mutex::new(table) }
    }

    /// Milliseconds that servers of this database have run.
    fn now(&self) -> u64 {
        let passed = u64::try_from(self.began.elapsed().as_millis()).unwrap_or(u64::MAX);
        self.before.saturating_add(passed)
    }

    /// What a request asks, with its client's permit.
    pub fn asked(&self, request: &Request, body: &[u8], permit: Permit) -> Result<Asked, Refusal> {
        let Some(header) = request.header("idempotency-key") else {
            return Ok(Asked { permit, key: None });
        };
        let key = key_in(header).ok_or_else(|| {
            let why = "an Idempotency-Key has 1 to 64 printable characters without a space, quote or backslash";
            Refusal::new(400, "idempotencykey", why)
        })?;
        let [matched, others] = ["if-match", "if-none-match"].map(|name| request.list(name));
        let head = [request.method.name(), &request.path, &request.query, &matched, &others].map(str::as_bytes);
        Ok(Asked { permit, ..Asked::new(&request.client, request.who.name(), &key, &[&head[..], &[body]].concat()) })
    }

    /// The answer that was given before, or the word to run. A request that runs is waited for until then.
    pub async fn begin(&self, asked: &mut Asked, until: Instant) -> Result<Begun<'_>, Refusal> {
        if let Some(key) = asked.key {
            loop {
                match self.find(key, &asked.permit.client)? {
                    Found::Answer(answer) => return Ok(Begun::Told(answer)),
                    Found::Nothing => break,
                    Found::Running(mut end) => {
                        asked.permit.leave();
                        if tokio::time::timeout_at(until.into(), end.changed()).await.is_err() {
                            let why = "a request with this Idempotency-Key isn't answered yet";
                            return Err(Refusal::busy("running", why));
                        }
                    }
                }
            }
        }
        Ok(Begun::Runs(Running { remembered: self, key: asked.key, client: asked.permit.client.clone() }))
    }

    /// Looks for an answer. Where there is nothing, it is noted that the request runs.
    fn find(&self, key: Key, client: &Client) -> Result<Found, Refusal> {
        let mut table = self.table.lock();
        table.forget(self.now(), self.time);
        if let Some(answered) = table.answered_to(key.named) {
            return match answered.asked == key.asked {
                true => Ok(Found::Answer(Answer::again(answered))),
                false => Err(Refusal::new(422, "idempotencykey", "another request had this Idempotency-Key")),
            };
        }
        if let Some(end) = table.running.get(&key.named) {
            return Ok(Found::Running(end.subscribe()));
        }
        self.room.check(client)?;
        table.running.insert(key.named, watch::channel(()).0);
        Ok(Found::Nothing)
    }

    // ---- checkpoints

    /// How many answers there were so far.
    pub fn count(&self) -> u64 {
        let table = self.table.lock();
        table.forgotten + table.answered.len() as u64
    }

    /// Some answers from the one of a number on, below the one of another number, and the number behind them. What was
    /// forgotten meanwhile is left out.
    pub fn some(&self, from: u64, below: u64) -> (Vec<Answered>, u64) {
        let table = self.table.lock();
        let (from, mut bytes) = (from.max(table.forgotten), 0);
        let most = usize::try_from(below.saturating_sub(from)).unwrap_or(usize::MAX).min(SOME);
        let behind = table.answered.iter().skip((from - table.forgotten) as usize).take(most);
        let has_room = |one: &Answered| {
            let is_first = bytes == 0;
            bytes += bytes_of(&one.form);
            is_first || bytes <= SOME_BYTES
        };
        let found: Vec<Answered> = behind.map(|(answered, _)| answered.clone()).take_while(has_room).collect();
        let next = if found.is_empty() { below } else { from + found.len() as u64 };
        (found, next)
    }
}

impl Table {
    fn answered_to(&self, named: u128) -> Option<&Answered> {
        let number = self.numbers.get(&named)?;
        self.answered.get((number - self.forgotten) as usize).map(|(answered, _)| answered)
    }

    fn add(&mut self, answered: Answered, held: Held) {
        self.numbers.insert(answered.named, self.forgotten + self.answered.len() as u64);
        self.answered.push_back((answered, held));
    }

    /// Forgets what was answered so many milliseconds ago.
    fn forget(&mut self, now: u64, time: u64) {
        while let Some((first, _)) = self.answered.front().filter(|(one, _)| one.time.saturating_add(time) <= now) {
            self.numbers.remove(&first.named);
            self.answered.pop_front();
            self.forgotten += 1;
        }
    }
}

/// What an answer counts.
fn bytes_of(form: &Form) -> usize {
    ENTRY_BYTES + if let Form::Text(text) = form { text.len() } else { 0 }
}

/// The first half of a SHA-256 of parts: whoever has keys finds no two requests that look the same.
fn digest(parts: &[&[u8]]) -> u128 {
    let mut hash = Sha256::new();
    for part in parts {
        hash.update((part.len() as u64).to_be_bytes());
        hash.update(part);
    }
    let all = hash.finalize();
    all.iter().take(16).fold(0, |digest, &byte| digest << 8 | u128::from(byte))
}

/// A request that runs. Where it ends without an answer, its key is free.
pub struct Running<'a> {
    remembered: &'a Remembered,
    key: Option<Key>,
    client: Client,
}

impl Running<'_> {
    /// What is to be remembered of a request with this key, where there is room for it.
    fn answered(&self, Key { named, asked }: Key, timestamp: u64, form: Form) -> Result<(Answered, Held), Refusal> {
        let mut held = self.remembered.room.begin(&self.client);
        held.grow(bytes_of(&form))?;
        Ok((Answered { time: self.remembered.now(), named, asked, timestamp, form }, held))
    }

    fn keep(&self, (answered, held): (Answered, Held)) {
        self.remembered.table.lock().add(answered, held);
    }
}

impl Drop for Running<'_> {
    fn drop(&mut self) {
        if let Some(Key { named, .. }) = self.key {
            self.remembered.table.lock().running.remove(&named);
        }
    }
}

/// Whoever commits asks this what is remembered, and tells it once that was done, under one lock.
pub struct Keep<'a> {
    pub running: &'a Running<'a>,
    pub form_of: &'a (dyn Fn(&Committed<'_>) -> Form + Sync),
}

/// What will be remembered of a commit, and how it is told the first time.
pub struct Kept {
    answered: (Answered, Held),
    told: Form,
}

impl Kept {
    pub fn answered(&self) -> &Answered {
        &self.answered.0
    }
}

impl Keep<'_> {
    /// What will be remembered of a commit, where its request has a key and it wrote something.
    pub fn of(&self, committed: &Committed<'_>) -> Result<Option<Kept>, Stop> {
        let Some(key) = self.running.key.filter(|_| committed.written > 0) else { return Ok(None) };
        let told = (self.form_of)(committed);
        let form = match &told {
            Form::Text(text) if text.len() > LONGEST => Form::Text(head_of(committed, text).into()),
            form => form.clone(),
        };
        let answered = self.running.answered(key, committed.timestamp, form).map_err(Stop::NotRemembered)?;
        Ok(Some(Kept { answered, told }))
    }

    /// It was made: how it is told.
    pub fn keep(&self, Kept { answered, told }: Kept) -> Form {
        self.running.keep(answered);
        told
    }
}

/// A header's key, with or without quotes.
fn key_in(header: &[u8]) -> Option<String> {
    let text = std::str::from_utf8(header).ok()?;
    let key = text.strip_prefix('"').and_then(|rest| rest.strip_suffix('"')).unwrap_or(text);
    let is_plain = key.bytes().all(|byte| byte.is_ascii_graphic() && byte != b'"' && byte != b'\\');
    (is_plain && (1..=LONGEST_KEY).contains(&key.len())).then(|| key.to_string())
}

#[cfg(test)]
mod tests;
