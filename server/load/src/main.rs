//! `load PEER PORT WORK ..` loads one server and writes a line of JSON with what was measured. `server/bench` runs it.
//!
//! ```text
//! PEER   session    this server over WebSockets, many transactions a message
//!        lines      the same, a message for each line
//!        call       this server by POST /call
//!        transact   this server by POST /transact, of a put and a get; `keyed` with an Idempotency-Key each
//!        redis      Redis: MULTI, SET, GET, EXEC; for readers XADD and XREAD BLOCK
//!        etcd       etcd by its HTTP gateway: a transaction of a put and a range; for readers a watch
//!
//! WORK   transactions CLIENTS EACH ROWS AHEAD    so many clients, each with so many transactions, ROWS of them in a
//!                                                message, messages sent AHEAD
//!        push READERS COUNT PAUSE                a row each PAUSE microseconds, until each reader has it
//!        flood READERS COUNT                     rows as fast as they are taken, told to all readers
//!        first COUNT                             so many rows, and a reader that begins with nothing
//!        fill COUNT                              so many rows
//!        pages READERS LIMIT COUNT               the rows of `fill`, by each reader, in pages of so many: this server alone
//!        feeds COUNT                             the rows of `fill`, written once more, by a feed that goes on from before
//!                                                that, plain and with the values before: this server alone
//! ```
//!
//! A transaction is one row: it begins, puts a key, reads it, commits. Each client is a thread with a connection of its
//! own. A refusal ends the run: what wasn't done isn't counted.

mod base64;
mod clients;
mod etcd;
mod failure;
mod figures;
mod http;
mod ours;
mod peer;
mod readers;
mod redis;
mod rows;
mod transact;
mod websocket;

use failure::Failure;
use ours::{Ours, Way};
use peer::Peer;
use transact::Transact;

fn main() {
    let words: Vec<String> = std::env::args().skip(1).collect();
    match run(&words) {
        Ok(told) => println!("{told}"),
        Err(failure) => {
            eprintln!("load: {failure}");
            std::process::exit(1);
        }
    }
}

fn run(words: &[String]) -> Result<String, Failure> {
    let [peer, port, work, numbers @ ..] = words else { return Err(Failure::Words) };
    let port: u16 = port.parse().map_err(|_| Failure::Words)?;
    let peer = peer_of(peer, port)?;
    let numbers =
        numbers.iter().map(|word| word.parse()).collect::<Result<Vec<usize>, _>>().map_err(|_| Failure::Words)?;
    match (work.as_str(), numbers.as_slice()) {
        ("transactions", &[clients, each, rows, ahead]) => {
            clients::run(&*peer, clients, each, rows.max(1), ahead.max(1))
        }
        ("push", &[readers, count, pause]) => readers::push(&*peer, readers, count, pause as u64),
        ("flood", &[readers, count]) => readers::flood(&*peer, readers, count),
        ("first", &[count]) => readers::first(&*peer, count),
        ("fill", &[count]) => rows::fill(&*peer, count),
        ("pages", &[readers, limit, count]) => rows::pages(port, readers, limit, count),
        ("feeds", &[count]) => rows::feeds(&*peer, port, count),
        _ => Err(Failure::Words),
    }
}

fn peer_of(name: &str, port: u16) -> Result<Box<dyn Peer>, Failure> {
    Ok(match name {
        "session" => Box::new(Ours { port, way: Way::Messages }),
        "lines" => Box::new(Ours { port, way: Way::Lines }),
        "call" => Box::new(Ours { port, way: Way::Calls }),
        "transact" => Box::new(Transact::new(port, false)),
        "keyed" => Box::new(Transact::new(port, true)),
        "redis" => Box::new(redis::Redis { port }),
        "etcd" => Box::new(etcd::Etcd { port }),
        _ => return Err(Failure::Words),
    })
}
