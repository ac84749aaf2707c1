//! How a request is refused: a status and one line of JSON.
//!
//! `error` is the refusal's name, for programs. `why` is a sentence, for people. Further members say what would be
//! right. The modules that look at a request make one, and `http` sends it.
//!
//! ```text
//! 409 {"error":"notclosed","why":"this timestamp is above closed","closed":"17"}
//! ```
//!
//! 1. The text is one line, whatever stands in a member: JSON escapes each newline.
//! 2. Numbers of the database are strings of digits, because JavaScript can't hold all of them as numbers.
//! 3. A status that owes a header has it: 401 names the ways to show a token, 405 the methods, 426 the version. 503 says
//!    when to ask again, where that is known.

use crate::gate::Right;
use crate::journal::Ticket;
use serde_json::Value;
use std::fmt::{self, Display, Write};
use std::time::Duration;

const CHALLENGE: &str = "Basic realm=\"ripsawbean\", charset=\"UTF-8\"";

#[derive(Debug, Clone, PartialEq)]
pub struct Refusal {
    pub status: u16,
    pub error: &'static str,
    pub why: String,
    pub members: Vec<(&'static str, Value)>,
    /// What it rests on, where that is less than all that was done before.
    pub rests: Option<Ticket>,
    headers: Vec<(&'static str, String)>,
}

impl Refusal {
    pub fn new(status: u16, error: &'static str, why: impl Into<String>) -> Refusal {
        Refusal { status, error, why: why.into(), members: Vec::new(), rests: None, headers: Vec::new() }
    }

    /// It is told once this is durable, and needn't wait for all that was done before.
    pub fn resting_on(self, ticket: Ticket) -> Refusal {
        Refusal { rests: Some(ticket), ..self }
    }

    /// A further member, as it is: a string, a count or null.
    pub fn with(mut self, name: &'static str, value: impl Into<Value>) -> Refusal {
        self.members.push((name, value.into()));
        self
    }

    /// A further member that is a number of the database.
    pub fn with_number(self, name: &'static str, number: u64) -> Refusal {
        self.with(name, number.to_string())
    }

    fn with_header(mut self, name: &'static str, value: impl Into<String>) -> Refusal {
        self.headers.push((name, value.into()));
        self
    }

    /// The headers that the answer has beside those of each answer.
    pub fn headers(&self) -> impl Iterator<Item = (&'static str, &str)> {
        self.headers.iter().map(|(name, value)| (*name, value.as_str()))
    }

    /// The body: one line of JSON, with its newline.
    pub fn line(&self) -> String {
        let mut line = format!("{{\"error\":{},\"why\":{}", quoted(self.error), quoted(&self.why));
        for (name, value) in &self.members {
            // Writing to a string can't fail.
            let _ = write!(line, ",{}:{value}", quoted(name));
        }
        line.push_str("}\n");
        line
    }
}

/// The refusals that several modules make.
impl Refusal {
    /// It may be asked for again in a second.
    pub fn busy(error: &'static str, why: impl Into<String>) -> Refusal {
        Refusal::busy_for(error, why, Duration::from_secs(1))
    }

    /// It may be asked for again once this has passed, told in whole seconds, and a second at least.
    pub fn busy_for(error: &'static str, why: impl Into<String>, time: Duration) -> Refusal {
        let seconds = time.as_secs() + u64::from(time.subsec_nanos() > 0);
        Refusal::new(503, error, why).with_header("Retry-After", seconds.max(1).to_string())
    }

    /// Another server may have taken its place.
    pub fn no_lease() -> Refusal {
        let why = "PostgreSQL doesn't confirm that this server still has the journal: whether anything was changed isn't known";
        Refusal::busy("lease", why)
    }

    pub fn unauthorized() -> Refusal {
        Refusal::new(401, "token", "the request has to show the token, as Bearer or as Basic's password")
            .with_header("WWW-Authenticate", CHALLENGE)
    }

    pub fn no_right(right: Right) -> Refusal {
        Refusal::new(403, "right", format!("this token has no right to {}", right.name()))
    }

    /// The token is for a span of keys, and this lies outside it.
    pub fn other_keys() -> Refusal {
        Refusal::new(403, "keys", "the token is for other keys")
    }

    pub fn no_path() -> Refusal {
        Refusal::new(404, "path", "the server has no such path").resting_on(Ticket::FREE)
    }

    /// A request names the database that it means.
    pub fn other_identity(identity: &str) -> Refusal {
        let why = "this is another database than the one that the request names: what was read there doesn't hold here";
        Refusal::new(412, "identity", why).with("identity", identity).resting_on(Ticket::FREE)
    }

    /// `allowed` are the methods of this path, as `GET, POST`.
    pub fn no_method(allowed: &str) -> Refusal {
        Refusal::new(405, "method", "this path takes other methods")
            .with_header("Allow", allowed)
            .resting_on(Ticket::FREE)
    }

    pub fn slow() -> Refusal {
        Refusal::new(408, "slow", "the body didn't come in time")
    }

    pub fn too_long() -> Refusal {
        Refusal::new(413, "toolong", "the body is longer than --max-message")
    }

    /// What follows such a body isn't known to be a request, so the connection ends.
    pub fn other_coding() -> Refusal {
        Refusal::new(501, "encoding", "chunked is the one Transfer-Encoding that is taken, and once")
            .with_header("Connection", "close")
    }

    /// A WebSocket of another version than the one that is spoken here.
    pub fn other_version() -> Refusal {
        Refusal::new(426, "websocket", "the server speaks version 13 of WebSocket")
            .with_header("Upgrade", "websocket")
            .with_header("Sec-WebSocket-Version", "13")
    }

    pub fn crowded() -> Refusal {
        Refusal::busy("answers", "answers that their readers haven't taken need as much memory as they may")
    }

    pub fn no_memory() -> Refusal {
        Refusal::new(503, "nomemory", "try again")
    }
}

impl Display for Refusal {
    fn fmt(&self, out: &mut fmt::Formatter) -> fmt::Result {
        write!(out, "{} {}: {}", self.status, self.error, self.why)
    }
}

impl std::error::Error for Refusal {}

fn quoted(text: &str) -> Value {
    Value::from(text)
}

#[cfg(test)]
mod tests {
    use super::*;

    #[test]
    fn a_line_has_its_members_in_their_order() {
        let refusal = Refusal::new(409, "notclosed", "this timestamp is above closed")
            .with_number("closed", (1 << 63) - 1)
            .with("lag", 3)
            .with("feed", Value::Null);
        assert_eq!(
            refusal.line(),
            "{\"error\":\"notclosed\",\"why\":\"this timestamp is above closed\",\"closed\":\"9223372036854775807\",\
             \"lag\":3,\"feed\":null}\n"
        );
        assert_eq!(refusal.headers().count(), 0);
    }

    #[test]
    fn a_line_stays_one_line() {
        let line = Refusal::new(400, "argument", "the query of /a\n\"b\\ may have \u{1}").line();
        assert_eq!(line.matches('\n').count(), 1);
        assert!(line.ends_with("}\n"));
        let value: Value = serde_json::from_str(&line).unwrap();
        assert_eq!(value["why"], "the query of /a\n\"b\\ may have \u{1}");
    }

    #[test]
    fn statuses_that_owe_a_header_have_it() {
        let headers = |refusal: &Refusal| refusal.headers().map(|(n, v)| format!("{n}: {v}")).collect::<Vec<_>>();
        let token = "WWW-Authenticate: Basic realm=\"ripsawbean\", charset=\"UTF-8\"";
        assert_eq!(headers(&Refusal::unauthorized()), [token]);
        assert_eq!(headers(&Refusal::no_method("GET, POST")), ["Allow: GET, POST"]);
        assert_eq!(headers(&Refusal::other_version()), ["Upgrade: websocket", "Sec-WebSocket-Version: 13"]);
        assert_eq!(headers(&Refusal::other_coding()), ["Connection: close"]);
    }

    #[test]
    fn whoever_asks_again_in_so_many_seconds_is_not_too_early() {
        let after = |time| Refusal::busy_for("holds", "", time).headers.pop();
        for (milliseconds, seconds) in [(0, "1"), (1, "1"), (1000, "1"), (1001, "2"), (29_500, "30"), (30_000, "30")] {
            let told = after(Duration::from_millis(milliseconds));
            assert_eq!(told, Some(("Retry-After", seconds.to_string())), "{milliseconds} ms");
        }
        assert_eq!(Refusal::busy("feeds", "").headers, [("Retry-After", "1".to_string())]);
    }

    #[test]
    fn statuses_are_those_of_the_readme() {
        for (refusal, status, error) in [
            (Refusal::unauthorized(), 401, "token"),
            (Refusal::no_path(), 404, "path"),
            (Refusal::no_method("GET"), 405, "method"),
            (Refusal::slow(), 408, "slow"),
            (Refusal::too_long(), 413, "toolong"),
        ] {
            assert_eq!((refusal.status, refusal.error), (status, error), "{refusal}");
        }
    }
}
