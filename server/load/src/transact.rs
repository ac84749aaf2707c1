//! Ripsawbean's server by `POST /transact`: a transaction is a request, and an answer.

use crate::failure::Failure;
use crate::http;
use crate::ours::{Ours, Way};
use crate::peer::{key_of, value_of, Client, Peer, Reader, Wire};
use std::io;
use std::ops::Range;
use std::time::{SystemTime, UNIX_EPOCH};

pub struct Transact {
    ours: Ours,
    /// What Idempotency-Keys begin with, where requests have them: no two runs have the same.
    keys: Option<String>,
}

impl Transact {
    pub fn new(port: u16, has_keys: bool) -> Transact {
        let now = SystemTime::now().duration_since(UNIX_EPOCH).map_or(0, |since| since.as_nanos());
        Transact { ours: Ours { port, way: Way::Calls }, keys: has_keys.then(|| format!("{now:x}")) }
    }

    fn request(&self, client: usize, at: usize) -> Vec<u8> {
        let key = key_of(client, at);
        let header = self.keys.as_ref().map(|keys| format!("Idempotency-Key: {keys}.{client}.{at}\r\n"));
        let steps = format!("{},{{\"get\":\"{key}\"}}", put(&key, &format!("v{at}")));
        self.then(header.as_deref().unwrap_or_default(), &steps)
    }

    fn then(&self, headers: &str, steps: &str) -> Vec<u8> {
        let headers = http::shown(0) + headers;
        http::request_with("POST", self.ours.port, "/transact", &headers, &format!("{{\"then\":[{steps}]}}"))
    }
}

fn put(key: &str, value: &str) -> String {
    format!("{{\"put\":\"{key}\",\"value\":\"{value}\"}}")
}

impl Peer for Transact {
    fn messages(&self, client: usize, count: usize, rows: usize) -> Vec<Vec<u8>> {
        let requests: Vec<Vec<u8>> = (0..count).map(|at| self.request(client, at)).collect();
        requests.chunks(rows).map(|part| part.concat()).collect()
    }

    fn told(&self, rows: Range<usize>) -> Vec<u8> {
        rows.flat_map(|at| self.then("", &put(&format!("r{}", at % 1000), &value_of(at)))).collect()
    }

    fn filled(&self, rows: Range<usize>) -> Vec<u8> {
        let puts: Vec<String> = rows.map(|at| put(&format!("first{at:08}"), &value_of(at))).collect();
        self.then("", &puts.join(","))
    }

    fn answers_to_filling(&self, _rows: usize) -> usize {
        1
    }

    fn client(&self) -> Result<Box<dyn Client>, Failure> {
        Ok(Box::new(Talk { wire: Wire::new(self.ours.port)?, answer: Vec::new() }))
    }

    fn ready(&self) -> Result<(), Failure> {
        self.ours.ready()
    }

    fn reader(&self) -> Result<Box<dyn Reader>, Failure> {
        self.ours.reader()
    }

    fn read_first(&self) -> Result<usize, Failure> {
        self.ours.read_first()
    }
}

struct Talk {
    wire: Wire,
    answer: Vec<u8>,
}

impl Client for Talk {
    fn send(&mut self, messages: &[u8]) -> io::Result<()> {
        self.wire.send(messages)
    }

    /// Each transaction is answered by itself. Whatever isn't 200 is a refusal.
    fn receive(&mut self, rows: usize) -> Result<(), Failure> {
        (0..rows).try_for_each(|_| http::answer(&mut self.wire, &mut self.answer))
    }

    fn has_more(&self) -> bool {
        !self.wire.input.buffer().is_empty()
    }
}
