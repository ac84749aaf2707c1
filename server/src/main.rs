//! One Ripsawbean database for many processes, over HTTP and WebSocket.
//!
//! The life of a line that a client sends, and the module that has each step:
//!
//! ```text
//! serving       a connection
//! http          a request, or the connection of a session
//! gate          who may speak
//! routes        its path
//! session       a message or a body: whole lines, answered in turns (`socket` has the WebSocket)
//! lines         one line: its timestamp is drawn or put in for `.`, and what a client may not do is refused
//! core          the one database makes the call, under the seat of the client's session
//! outcome       what the event did, as a value
//! ledger        what it did is noted: timestamps, transactions, feeds, protections, rows
//! journal       what has to outlive a crash is recorded, and the answer waits for the disk where it rests on that
//! closing       soon after, closed moves as far as transactions are decided
//! streams       each feed that is followed is polled once closed has moved, and its messages are pushed
//! ```
//!
//! `api` is beside that life: a transaction in one request, keys and rows, as JSON.
//!
//! Beside them: `door` (the lock, turns, and the lane of long work), `seats` (the 64 seats), `consumers` and `names`
//! (what consumers have stored, held while they are down), `lag` (rows closed above a timestamp), `transcript` (the
//! events kept), `reports`, `metrics`, `dump`, `connections` (how many, and which are silent or stuck), `shares` (what
//! one client may take), `ws`, `query`, `refusal`, `options`, `tokens`, `tls`, `notify`, `log`, `page`, `before` (values before a
//! feed's rows), `cuts` (where a long walk may be cut), `faults` (their words), `heap` (one for all threads), `memory`
//! (how full it is), `growth` (what grows though it is full), `reserve` (what is taken beside the database).
//!
//! Three rules hold everywhere. All calls are made under one lock, which no one holds over an await. The database alone
//! decides: the ledger only follows its answers, and where an answer isn't as the ledger foretells, the server says so
//! aloud. An event is in the transcript and in the ledger before the lock is given back.
#![forbid(unsafe_code)]

mod api;
mod before;
mod closing;
mod connections;
mod consumers;
mod core;
mod cuts;
mod door;
mod dump;
mod faults;
mod form;
mod gate;
mod growth;
#[cfg(test)]
mod guide;
mod heap;
mod histogram;
mod http;
mod journal;
mod json;
mod lag;
mod ledger;
mod lines;
mod log;
mod memory;
mod metrics;
mod names;
mod notify;
mod options;
mod outcome;
mod pace;
mod page;
mod process;
mod query;
mod refusal;
mod reports;
mod reserve;
mod routes;
mod seats;
mod serving;
mod session;
mod shares;
mod snapshot;
mod socket;
mod stream;
mod streams;
mod tasks;
#[cfg(test)]
mod testing;
mod tls;
mod tokens;
mod transcript;
mod ws;

use options::Asked;
use std::process::ExitCode;

/// The status of a wrong command line.
const WRONG: u8 = 2;

fn main() -> ExitCode {
    log::end_at_a_panic();
    let options = match options::read(std::env::args_os().skip(1)) {
        Ok(Asked::Serve(options)) => *options,
        Ok(Asked::Help(text) | Asked::Version(text)) => {
            print!("{text}");
            return ExitCode::SUCCESS;
        }
        Err(fault) => {
            eprintln!("ripsawbean-server: {fault}");
            return ExitCode::from(WRONG);
        }
    };
    if let Err(error) = heap::be_one() {
        eprintln!(
            "ripsawbean-server: each thread has a heap of its own, because the program can't begin anew: {error}"
        );
    }
    match serving::serve(options) {
        Ok(()) => ExitCode::SUCCESS,
        Err(failure) => {
            eprintln!("ripsawbean-server: {failure}");
            if failure.is_of_an_option() {
                ExitCode::from(WRONG)
            } else {
                ExitCode::FAILURE
            }
        }
    }
}
