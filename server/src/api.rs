//! Transactions, keys and rows as JSON over HTTP. server/API.md has each request and answer.
//!
//! ```text
//! POST /transact        transact -> plan, strict, bytes     what it asks
//!                                -> run, pages              the calls, under one lock or in turns
//! GET, PUT .. /key/KEY  keys     -> a plan of one step, or a read at closed
//! GET /rows             rows     -> pages, holds            the snapshot is held from page to page
//! GET /openapi.json     openapi                             its words for programs
//! ```
//!
//! `remembered` has the answers to an `Idempotency-Key`. Here is what all of them take and give.
//!
//! 1. None of it takes a seat: the calls are made under the server's own.
//! 2. A request waits for others' transactions no longer than its `wait`.

mod bytes;
pub mod holds;
pub mod keys;
pub mod openapi;
pub mod pages;
pub mod plan;
#[cfg(all(test, feature = "refusing"))]
mod refusals;
pub mod remembered;
pub mod rows;
pub mod run;
mod strict;
pub mod transact;

use self::bytes::Spelling;
use crate::http::{Request, Response};
use crate::journal::{Answered, Form, Ticket};
use crate::query::Arguments;
use crate::refusal::Refusal;
use crate::routes::Server;
use crate::session::Place;
use ::bytes::Bytes;
use std::time::Duration;

/// How long a body may take.
const BODY: Duration = Duration::from_secs(10);
/// Seconds that a request waits where nothing is said, and at most.
const WAIT: f64 = 1.0;
const MOST_WAIT: f64 = 30.0;

/// What was committed, and how it is told.
#[derive(Clone, Debug, PartialEq, Eq)]
pub struct Answer {
    timestamp: u64,
    form: Form,
    /// Whether it was told before.
    is_again: bool,
    /// What it rests on, where that is less than all that was done before.
    rests: Option<Ticket>,
}

impl Answer {
    fn new(timestamp: u64, form: Form, rests: Ticket) -> Answer {
        Answer { timestamp, form, is_again: false, rests: Some(rests) }
    }

    fn again(answered: &Answered) -> Answer {
        Answer { timestamp: answered.timestamp, form: answered.form.clone(), is_again: true, rests: None }
    }

    fn into_response(self, place: Option<Place>) -> Response {
        let Answer { timestamp, form, is_again, rests } = self;
        let json = |text: Bytes| Response::whole("application/json; charset=utf-8", text);
        let written = || {
            let text = format!("{{\"timestamp\":\"{timestamp}\"}}\n");
            json(text.into()).with("ripsawbean-timestamp", timestamp.to_string())
        };
        let mut response = match form {
            Form::Put => written().with("etag", format!("\"{timestamp}\"")),
            Form::Deleted => written(),
            Form::Text(text) => json(text),
        };
        if is_again {
            response = response.with("idempotent-replayed", "true");
        }
        response.rests = rests;
        match place {
            Some(mut place) => {
                place.unread.set(response.length());
                response.keeping(place)
            }
            None => response,
        }
    }
}

/// The body of a request, as it is sent. It is read before anything is refused, so that its connection can go on.
async fn body_of(server: &Server, request: &mut Request, most: usize) -> Result<Vec<u8>, Refusal> {
    let body = request.body(most.min(server.options.max_message), BODY).await?;
    match request.header("content-encoding") {
        None | Some(b"identity") => Ok(body),
        Some(_) => Err(Refusal::new(415, "encoding", "a body is taken as it is, and isn't decoded")),
    }
}

/// How bytes are told.
fn spelling_in(given: &Arguments) -> Result<Spelling, Refusal> {
    match given.bytes("bytes") {
        None | Some(b"auto") => Ok(Spelling::Text),
        Some(b"base64") => Ok(Spelling::Base64),
        Some(_) => Err(Refusal::new(400, "bytes", "bytes has to be auto or base64")),
    }
}

/// For how long others' transactions are waited for.
fn wait_in(given: &Arguments) -> Result<Duration, Refusal> {
    seconds_in(given, "wait", MOST_WAIT).map(|wait| wait.unwrap_or(Duration::from_secs_f64(WAIT)))
}

/// A number of seconds, where it is given.
fn seconds_in(given: &Arguments, name: &str, most: f64) -> Result<Option<Duration>, Refusal> {
    let Some(word) = given.bytes(name) else { return Ok(None) };
    let is_plain = word.iter().all(|&byte| byte.is_ascii_digit() || byte == b'.');
    let number = std::str::from_utf8(word).ok().filter(|_| is_plain).and_then(|word| word.parse().ok());
    match number {
        Some(seconds) if (0.0..=most).contains(&seconds) => Ok(Some(Duration::from_secs_f64(seconds))),
        _ => {
            let why = format!("{name} has to be a number of seconds from 0 to {most}");
            Err(Refusal::new(400, "number", why))
        }
    }
}

#[cfg(test)]
mod tests {
    use super::*;
    use crate::query::arguments;

    #[test]
    fn seconds_are_plain_decimals() {
        let wait = |query: &str| arguments("/rows", query, &["wait"]).and_then(|given| wait_in(&given)).ok();
        for (query, milliseconds) in [
            ("", Some(1000)),
            ("wait=0", Some(0)),
            ("wait=0.25", Some(250)),
            ("wait=30", Some(30_000)),
            ("wait=30.1", None),
            ("wait=-1", None),
            ("wait=1e1", None),
            ("wait=nan", None),
            ("wait=.", None),
            ("wait=", None),
            ("wait=1.2.3", None),
        ] {
            assert_eq!(wait(query), milliseconds.map(Duration::from_millis), "{query}");
        }
    }

    impl Answer {
        pub fn form(&self) -> &Form {
            &self.form
        }
    }
}
