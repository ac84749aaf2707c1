//! `/key/KEY`: one key, as files are read and written over HTTP.
//!
//! A key's ETag is the timestamp of its version. `GET` without `at` gives the newest committed value: a snapshot where
//! closed has come as far as all that began, and else a transaction's read, which waits for a write in its way.
//!
//! ```text
//! PUT /key/a               200  ETag: "5"
//! GET /key/a               200  ETag: "5"
//! PUT /key/a, If-Match: "4"     412 condition: nothing was changed
//! DELETE /key/none         404  none: nothing was written, so no feed tells of it
//! ```
//!
//! 1. The path is taken as it was sent: `/` and `%2F` are one byte of the key.
//! 2. A write is a plan with its conditions, as `POST /transact` takes it. Its answer tells whether they hold, so who has
//!    any wants the right to read. A DELETE has the condition that the key is there.

use super::bytes::{MOST_KEY, MOST_VALUE};
use super::holds::Wanted;
use super::plan::{Condition, Plan, Step, Test};
use super::rows::at_snapshot;
use super::run::{Committed, End, Failed, Row, Stop, Told};
use super::transact::{answer_once, run_until, tell_members};
use super::{body_of, spelling_in, wait_in};
use crate::core::Core;
use crate::door::{Length, Permit};
use crate::http::{Request, Response};
use crate::journal::{Form, Ticket};
use crate::outcome::Outcome;
use crate::query::{arguments, number_of, percent_decoded};
use crate::refusal::Refusal;
use crate::routes::Server;
use crate::seats::Owner;
use crate::shares::Client;
use ripsawbean::{Command, Refusal as Refused};
use std::borrow::Cow;
use std::sync::Arc;
use std::time::Instant;

/// What was read, and as of when.
struct Read {
    timestamp: u64,
    value: Option<Vec<u8>>,
    version: Option<u64>,
    rests: Ticket,
}

/// `GET /key/KEY`.
pub async fn get(server: &Arc<Server>, request: Request) -> Result<Response, Refusal> {
    let given = arguments(&request.path, &request.query, &["at", "hold", "wait", "bytes"])?;
    let (key, spelling) = (key_in(&request)?, spelling_in(&given)?);
    let tags = Tags::of(&request, "if-none-match")?;
    let (start, hold) = (Instant::now(), Wanted::of(&request, &given)?);
    let Read { timestamp, value, version, rests } =
        read(server, &key, given.number("at"), &hold, start + wait_in(&given)?).await?;
    server.metrics.transactions.note(start.elapsed());
    let Some(value) = value else { return Err(no_value(timestamp).resting_on(rests)) };
    let tag = version.map_or_else(String::new, |version| format!("\"{version}\""));
    let response = if tags.is_some_and(|tags| tags.names(version)) {
        Response::empty(304)
    } else if request.list("accept").contains("application/json") {
        let mut out = format!("{{\"timestamp\":\"{timestamp}\",").into_bytes();
        tell_members(&mut out, &Row { key: Cow::Owned(key), value: Some(value), version }, spelling);
        out.extend_from_slice(b"}\n");
        Response::whole("application/json; charset=utf-8", out)
    } else {
        Response::whole("application/octet-stream", value)
    };
    Ok(response
        .with("etag", tag)
        .with("ripsawbean-timestamp", timestamp.to_string())
        .with("cache-control", "no-cache")
        .with("vary", "Accept")
        .resting_on(rests))
}

/// `PUT /key/KEY`.
pub async fn put(server: &Arc<Server>, request: Request) -> Result<Response, Refusal> {
    write(server, request, Kind::Put).await
}

/// `DELETE /key/KEY`.
pub async fn delete(server: &Arc<Server>, request: Request) -> Result<Response, Refusal> {
    write(server, request, Kind::Delete).await
}

fn no_value(timestamp: u64) -> Refusal {
    Refusal::new(404, "none", "this key has no value").with_number("timestamp", timestamp)
}

/// The key of the path, which someone may read or write.
fn key_in(request: &Request) -> Result<Vec<u8>, Refusal> {
    let key = percent_decoded(&request.path.as_bytes()["/key/".len()..])?;
    if !(1..=MOST_KEY).contains(&key.len()) {
        return Err(Refusal::new(400, "keylength", format!("a key has 1 to {MOST_KEY} bytes")));
    }
    match request.who.keys().holds(&key) {
        true => Ok(key),
        false => Err(Refusal::other_keys()),
    }
}

// ---- reading

async fn read(server: &Server, key: &[u8], at: Option<u64>, hold: &Wanted, until: Instant) -> Result<Read, Refusal> {
    let held = |core: &mut Core, at| {
        let read = read_at(core, key, at)?;
        core.hold_wanted(at, hold, None)?;
        Ok(read)
    };
    if at.is_some() {
        return at_snapshot(server, hold.by(), at, until, Length::Short, held).await;
    }
    let is_current = |core: &Core| core.ledger.closed >= core.ledger.greatest;
    let newest = server.door.run(|core| is_current(core).then(|| held(core, core.ledger.closed))).transpose()?;
    match newest {
        Some(read) => Ok(read),
        None => {
            let read = read_by_transaction(server, hold.by(), key, until).await?;
            if hold.time(None).is_some() {
                // A snapshot can be held once it is closed.
                at_snapshot(server, hold.by(), Some(read.timestamp), until, Length::Short, held).await?;
            }
            Ok(read)
        }
    }
}

fn read_at(core: &mut Core, key: &[u8], at: u64) -> Result<Read, Refusal> {
    let mut value = None;
    core.journal.begin();
    match core.show(Owner::Server, Command::ReadAt { t: at, key }, &mut |event| value = event.value()) {
        Ok(Outcome::Nothing) => {}
        Ok(Outcome::Refused(Refused::BelowHorizon(horizon))) => return Err(Stop::BelowHorizon(horizon).refusal()),
        _ => return Err(Stop::NoMemory.refusal()),
    }
    let version = match value {
        Some(_) => core.versions_at(at, &[key]).map_err(|_| Stop::NoMemory.refusal())?.pop().flatten(),
        None => None,
    };
    Ok(Read { timestamp: at, value, version, rests: core.journal.needed() })
}

async fn read_by_transaction(server: &Server, client: &Client, key: &[u8], until: Instant) -> Result<Read, Refusal> {
    let plan = Plan { then: vec![Step::Get { key: Cow::Borrowed(key) }], ..Plan::default() };
    let End::Committed(mut committed) = run_until(server, &mut Permit::of(client), &plan, until, None, None).await?
    else {
        return Err(Stop::Unexpected.refusal());
    };
    let Committed { timestamp, rests, .. } = committed;
    match committed.results.pop() {
        Some(Told::Row(Row { value, version, .. })) => Ok(Read { timestamp, value, version, rests }),
        _ => Err(Stop::Unexpected.refusal()),
    }
}

// ---- writing

#[derive(Clone, Copy, PartialEq, Eq)]
enum Kind {
    Put,
    Delete,
}

async fn write(server: &Arc<Server>, mut request: Request, kind: Kind) -> Result<Response, Refusal> {
    let value = match kind {
        Kind::Put => value_of(server, &mut request).await?,
        Kind::Delete => Vec::new(),
    };
    let start = Instant::now();
    let given = arguments(&request.path, &request.query, &["wait"])?;
    let (wait, key, mut conditions) = (wait_in(&given)?, key_in(&request)?, conditions_in(&request)?);
    let mut asked = server.remembered.asked(&request, &value, Permit::of(&request.client))?;
    let is_matched = request.header("if-match").is_some();
    let borrowed = || Cow::Borrowed(key.as_slice());
    let step = match kind {
        Kind::Put => Step::Put { key: borrowed(), value: Cow::Borrowed(&value) },
        Kind::Delete => Step::Del { key: borrowed() },
    };
    if kind == Kind::Delete {
        conditions.push(Test::Present);
    }
    let conditions = conditions.into_iter().map(|test| Condition::Key { key: borrowed(), test }).collect();
    let plan = Plan { conditions, then: vec![step], otherwise: None };
    plan.check(&request.who)?;
    let form_of = |_: &Committed<'_>| match kind {
        Kind::Put => Form::Put,
        Kind::Delete => Form::Deleted,
    };
    let refused = |failed: Failed<'_>| match kind {
        Kind::Delete if !is_matched => no_value(failed.timestamp),
        _ => other_version(failed),
    };
    let answered = answer_once(server, &mut asked, &plan, start + wait, &form_of, refused, None).await;
    server.metrics.transactions.note(start.elapsed());
    Ok(answered?.into_response(None))
}

fn other_version(failed: Failed<'_>) -> Refusal {
    let version = failed.found.into_iter().find_map(|(_, row)| row?.version);
    Refusal::new(412, "condition", "the key's version is another one: nothing was changed")
        .with_number("timestamp", failed.timestamp)
        .with("version", version.map(|version| version.to_string()))
}

async fn value_of(server: &Server, request: &mut Request) -> Result<Vec<u8>, Refusal> {
    let is_value = |refusal: &Refusal| refusal.error == "toolong" && server.options.max_message > MOST_VALUE;
    body_of(server, request, MOST_VALUE).await.map_err(|refusal| match is_value(&refusal) {
        true => Refusal::new(413, "valuelength", format!("a value has {MOST_VALUE} bytes at most")),
        false => refusal,
    })
}

fn conditions_in(request: &Request) -> Result<Vec<Test<'static>>, Refusal> {
    let mut conditions = Vec::new();
    match Tags::of(request, "if-match")? {
        None => {}
        Some(Tags::Any) => conditions.push(Test::Present),
        Some(Tags::Some(tags)) => {
            conditions.push(Test::OneOf(tags.iter().filter(|tag| !tag.is_weak).map(|tag| tag.version).collect()));
        }
    }
    match Tags::of(request, "if-none-match")? {
        None => {}
        Some(Tags::Any) => conditions.push(Test::Absent),
        Some(Tags::Some(tags)) => conditions.push(Test::NoneOf(tags.iter().map(|tag| tag.version).collect())),
    }
    Ok(conditions)
}

// ---- ETags

/// A header of ETags.
#[derive(Debug, PartialEq)]
enum Tags {
    /// `*`
    Any,
    Some(Vec<Tag>),
}

/// One that names a version. Others name nothing of this database.
#[derive(Debug, PartialEq)]
struct Tag {
    version: u64,
    is_weak: bool,
}

impl Tags {
    fn of(request: &Request, name: &str) -> Result<Option<Tags>, Refusal> {
        if request.header(name).is_none() {
            return Ok(None);
        }
        let tags = Tags::read(&request.list(name));
        let why = || Refusal::new(400, "etag", format!("{name} has to be * or ETags, as \"17\""));
        tags.ok_or_else(why).map(Some)
    }

    fn read(list: &str) -> Option<Tags> {
        if list.trim() == "*" {
            return Some(Tags::Any);
        }
        let mut tags = Vec::new();
        for word in list.split(',').map(str::trim).filter(|word| !word.is_empty()) {
            let (is_weak, quoted) = word.strip_prefix("W/").map_or((false, word), |rest| (true, rest));
            let tag = quoted.strip_prefix('"')?.strip_suffix('"')?;
            if let Some(version) = number_of(tag.as_bytes()) {
                tags.push(Tag { version, is_weak });
            }
        }
        Some(Tags::Some(tags)).filter(|_| !list.trim().is_empty())
    }

    /// Whether it names a version, as `If-None-Match` does.
    fn names(&self, version: Option<u64>) -> bool {
        match self {
            Tags::Any => version.is_some(),
            Tags::Some(tags) => tags.iter().any(|tag| Some(tag.version) == version),
        }
    }
}

#[cfg(test)]
mod tests {
    use super::*;
    use crate::gate::{Keys, Right, Who};
    use crate::testing::{ask, server, status};

    #[tokio::test]
    async fn a_key_outside_of_a_span_is_neither_told_nor_written() {
        let server = server(&[]);
        let few = Who::of("few", &[Right::Read, Right::Write]);
        let few = few.with_keys(Keys { lo: b"b".to_vec(), hi: Some(b"d".to_vec()) });
        for line in ["PUT /key/a", "PUT /key/c"] {
            assert_eq!(status(ask(&server, &Who::anyone(), line, &[], "1").await), (200, ""), "{line}");
        }
        for method in ["GET", "HEAD", "PUT", "DELETE"] {
            for key in ["a", "d", "%61", "none"] {
                let told = ask(&server, &few, &format!("{method} /key/{key}"), &[], "").await;
                assert_eq!(status(told), (403, "keys"), "{method} {key}");
            }
            assert_eq!(status(ask(&server, &few, &format!("{method} /key/c"), &[], "").await), (200, ""), "{method}");
        }
    }

    #[tokio::test]
    async fn whoever_only_writes_is_not_told_whether_a_condition_holds() {
        let (server, sensor) = (server(&[]), Who::of("sensor", &[Right::Write]));
        for (line, header, told) in [
            ("PUT /key/a", None, (200, "")),
            ("PUT /key/a", Some(("if-match", "\"1\"")), (403, "right")),
            ("PUT /key/b", Some(("if-none-match", "*")), (403, "right")),
            ("DELETE /key/a", None, (403, "right")),
            ("DELETE /key/none", None, (403, "right")),
        ] {
            let headers: Vec<_> = header.into_iter().collect();
            assert_eq!(status(ask(&server, &sensor, line, &headers, "1").await), told, "{line} {header:?}");
        }
    }

    #[tokio::test]
    async fn conditions_are_those_of_etags() {
        let server = server(&[]);
        for (line, header, told) in [
            ("PUT /key/a", Some(("if-match", "*")), (412, "condition")),
            ("PUT /key/a", Some(("if-none-match", "*")), (200, "")),
            ("PUT /key/a", Some(("if-none-match", "*")), (412, "condition")),
            ("GET /key/a", Some(("if-none-match", "\"1\"")), (200, "")),
            ("GET /key/a", Some(("if-none-match", "W/\"2\"")), (304, "")),
            ("GET /key/a", Some(("if-none-match", "*")), (304, "")),
            ("PUT /key/a", Some(("if-match", "W/\"2\"")), (412, "condition")),
            ("PUT /key/a", Some(("if-none-match", "W/\"2\"")), (412, "condition")),
            ("DELETE /key/a", Some(("if-match", "\"1\"")), (412, "condition")),
            ("DELETE /key/a", Some(("if-match", "\"1\", \"2\"")), (200, "")),
            ("DELETE /key/a", Some(("if-match", "*")), (412, "condition")),
            ("DELETE /key/a", None, (404, "none")),
        ] {
            let headers: Vec<_> = header.into_iter().collect();
            assert_eq!(status(ask(&server, &Who::anyone(), line, &headers, "1").await), told, "{line} {header:?}");
        }
    }

    #[tokio::test]
    async fn a_value_has_a_length_and_no_coding() {
        let server = server(&[]);
        for (length, coding, told) in [
            (MOST_VALUE, "identity", (200, "")),
            (MOST_VALUE + 1, "identity", (413, "valuelength")),
            (1, "gzip", (415, "encoding")),
        ] {
            let (headers, value) = ([("content-encoding", coding)], "x".repeat(length));
            let answered = ask(&server, &Who::anyone(), "PUT /key/a", &headers, &value).await;
            assert_eq!(status(answered), told, "{length} {coding}");
        }
        let answered = ask(&server, &Who::anyone(), "POST /transact", &[("content-encoding", "br")], "{}").await;
        assert_eq!(status(answered), (415, "encoding"));
    }

    #[tokio::test]
    async fn a_read_holds_its_snapshot_where_that_is_asked() {
        let server = server(&[]);
        assert_eq!(status(ask(&server, &Who::anyone(), "PUT /key/a", &[], "1").await), (200, ""));
        for (query, held) in [("", 0), ("?hold=0", 0), ("?hold=0.0&at=1", 0), ("?at=1&hold=9", 1), ("?hold=9", 1)] {
            let told = ask(&server, &Who::anyone(), &format!("GET /key/a{query}"), &[], "").await;
            assert_eq!(status(told), (200, ""), "{query}");
            assert_eq!(server.door.run(|core| core.ledger.protections.len()), held, "{query}");
        }
        assert_eq!(status(ask(&server, &Who::anyone(), "GET /key/a?hold=300.1", &[], "").await), (400, "number"));
    }

    #[test]
    fn lists_of_etags() {
        let tag = |version, is_weak| Tag { version, is_weak };
        for (list, tags) in [
            ("*", Some(Tags::Any)),
            (" * ", Some(Tags::Any)),
            ("\"17\"", Some(Tags::Some(vec![tag(17, false)]))),
            ("\"2\", W/\"3\"", Some(Tags::Some(vec![tag(2, false), tag(3, true)]))),
            ("\"2\",\"x\",\"007\"", Some(Tags::Some(vec![tag(2, false)]))),
            ("17", None),
            ("\"17", None),
            ("", None),
            ("\"1\", *", None),
        ] {
            assert_eq!(Tags::read(list), tags, "{list}");
        }
        assert!(Tags::Any.names(Some(1)) && !Tags::Any.names(None));
        assert!(Tags::Some(vec![tag(3, true)]).names(Some(3)) && !Tags::Some(vec![]).names(Some(3)));
    }
}
