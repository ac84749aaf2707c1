//! etcd, by its gateway of HTTP and JSON: the only one of its ways that needs no gRPC. It costs etcd a translation.

use crate::base64::{encode, number_in};
use crate::failure::{refused, Failure};
use crate::http;
use crate::peer::{key_of, value_of, Client, Peer, Reader, Wire};
use std::io;
use std::ops::Range;

const VALUE: &[u8] = b"\"value\":\"";
/// As many as one transaction of etcd may have.
const MOST_OPERATIONS: usize = 128;

pub struct Etcd {
    pub port: u16,
}

fn put(key: &str, value: &str) -> String {
    format!("{{\"request_put\":{{\"key\":\"{}\",\"value\":\"{}\"}}}}", encode(key.as_bytes()), encode(value.as_bytes()))
}

impl Etcd {
    fn transaction(&self, operations: &str) -> Vec<u8> {
        http::request("POST", self.port, "/v3/kv/txn", &format!("{{\"success\":[{operations}]}}"))
    }
}

impl Peer for Etcd {
    fn messages(&self, client: usize, count: usize, rows: usize) -> Vec<Vec<u8>> {
        let requests: Vec<Vec<u8>> = (0..count)
            .map(|at| {
                let key = key_of(client, at);
                let get = format!("{{\"request_range\":{{\"key\":\"{}\"}}}}", encode(key.as_bytes()));
                self.transaction(&format!("{},{get}", put(&key, &format!("v{at}"))))
            })
            .collect();
        requests.chunks(rows).map(|part| part.concat()).collect()
    }

    fn told(&self, rows: Range<usize>) -> Vec<u8> {
        rows.flat_map(|at| self.transaction(&put(&format!("told/{}", at % 1000), &value_of(at)))).collect()
    }

    fn filled(&self, rows: Range<usize>) -> Vec<u8> {
        let puts: Vec<String> = rows.map(|at| put(&format!("first/{at:08}"), &value_of(at))).collect();
        puts.chunks(MOST_OPERATIONS).flat_map(|part| self.transaction(&part.join(","))).collect()
    }

    fn answers_to_filling(&self, rows: usize) -> usize {
        rows.div_ceil(MOST_OPERATIONS)
    }

    fn client(&self) -> Result<Box<dyn Client>, Failure> {
        Ok(Box::new(Talk { wire: Wire::new(self.port)?, answer: Vec::new() }))
    }

    fn reader(&self) -> Result<Box<dyn Reader>, Failure> {
        let mut wire = Wire::new(self.port)?;
        let span = format!("\"key\":\"{}\",\"range_end\":\"{}\"", encode(b"told/"), encode(b"told0"));
        let body = format!("{{\"create_request\":{{{span}}}}}");
        wire.send(&http::request("POST", self.port, "/v3/watch", &body))?;
        http::head(&mut wire)?;
        let mut created = Vec::new();
        http::chunk(&mut wire, &mut created)?;
        Ok(Box::new(Watch { wire, held: Vec::new() }))
    }

    fn read_first(&self) -> Result<usize, Failure> {
        let mut wire = Wire::new(self.port)?;
        let body = format!("{{\"key\":\"{}\",\"range_end\":\"{}\"}}", encode(b"first/"), encode(b"first0"));
        wire.send(&http::request("POST", self.port, "/v3/kv/range", &body))?;
        let mut answer = Vec::new();
        http::answer(&mut wire, &mut answer)?;
        Ok(places(&answer).count())
    }
}

/// Where the values of an answer begin.
fn places(answer: &[u8]) -> impl Iterator<Item = usize> + '_ {
    let quotes = answer.iter().enumerate().filter(|(_, byte)| **byte == b'v').map(|(at, _)| at);
    quotes.filter(|at| *at > 0 && answer[at - 1..].starts_with(VALUE)).map(|at| at - 1 + VALUE.len())
}

struct Talk {
    wire: Wire,
    answer: Vec<u8>,
}

impl Client for Talk {
    fn send(&mut self, messages: &[u8]) -> io::Result<()> {
        self.wire.send(messages)
    }

    fn receive(&mut self, rows: usize) -> Result<(), Failure> {
        for _ in 0..rows {
            http::answer(&mut self.wire, &mut self.answer)?;
            if !self.answer.windows(11).any(|part| part == b"\"succeeded\"") {
                return Err(refused(&self.answer));
            }
        }
        Ok(())
    }

    fn has_more(&self) -> bool {
        !self.wire.input.buffer().is_empty()
    }
}

struct Watch {
    wire: Wire,
    held: Vec<u8>,
}

impl Reader for Watch {
    fn read(&mut self, told: &mut Vec<usize>) -> Result<(), Failure> {
        http::chunk(&mut self.wire, &mut self.held)?;
        let whole = self.held.iter().rposition(|byte| *byte == b'\n').map_or(0, |at| at + 1);
        told.extend(places(&self.held[..whole]).filter_map(|at| number_in(&self.held[at..])));
        self.held.drain(..whole);
        Ok(())
    }
}
