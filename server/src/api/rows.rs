//! `GET /rows`: the rows of a span, in pages of one snapshot.
//!
//! ```text
//! GET /rows?lo=a&limit=2            {"timestamp":"7","rows":[..],"next":"/rows?lo=c&at=7&limit=2"}
//! GET /rows?lo=c&at=7&limit=2       {"timestamp":"7","rows":[..],"next":null}
//! ```
//!
//! 1. All pages of a walk show one snapshot, or are refused. While there are more, it is held for `hold` seconds, and
//!    each page holds it anew. Where `hold` is 0, nothing is held.
//! 2. A page that isn't the last one has a row at least.
//! 3. A page is read in parts, none of which takes longer than a turn: those behind the first one in the lane. Its
//!    snapshot isn't collected meanwhile.

use super::holds::Wanted;
use super::pages::{MOST_BYTES, PART};
use super::plan::{Bounds, MOST_ROWS, ROWS};
use super::run::{Row, Stop};
use super::transact::tell_rows;
use super::{bytes::MOST_BOUND, spelling_in, wait_in};
use crate::core::Core;
use crate::door::{Length, Permit, TURN};
use crate::http::{Request, Response};
use crate::journal::Ticket;
use crate::outcome::Outcome;
use crate::query::{arguments, percent_encoded, Arguments};
use crate::refusal::Refusal;
use crate::routes::Server;
use crate::seats::Owner;
use crate::session::place_of_answer;
use crate::shares::{Client, Held};
use ripsawbean::{Command, Room};
use std::borrow::Cow;
use std::sync::Arc;
use std::time::{Duration, Instant};

/// For how long a page holds its snapshot where more follow and nothing is said.
const HOLD: Duration = Duration::from_secs(30);

/// A page as it is told.
struct Shown {
    timestamp: u64,
    rows: Vec<Row<'static>>,
    next: Option<Vec<u8>>,
    rests: Ticket,
}

pub async fn rows(server: &Arc<Server>, request: Request) -> Result<Response, Refusal> {
    let given = arguments(&request.path, &request.query, &["lo", "hi", "at", "limit", "hold", "wait", "bytes"])?;
    let (wait, hold, spelling) = (wait_in(&given)?, Wanted::of(&request, &given)?, spelling_in(&given)?);
    let (limit, span) = (limit_in(&given)?, span_in(&given)?);
    if !span.is_within(request.who.keys()) {
        return Err(Refusal::other_keys());
    }
    let mut place = place_of_answer(server, &request.client)?;
    let start = Instant::now();
    let until = start + wait;
    let Shown { timestamp, rows, next, rests } =
        in_turns(server, span, given.number("at"), until, limit, &hold, &place.unread).await?;
    let next = next.map(|lo| path_of(&given, &lo, timestamp));
    let mut out = format!("{{\"timestamp\":\"{timestamp}\",\"rows\":").into_bytes();
    tell_rows(&mut out, &rows, spelling);
    match &next {
        // A path has no byte that JSON escapes.
        Some(next) => out.extend_from_slice(format!(",\"next\":\"{next}\"}}\n").as_bytes()),
        None => out.extend_from_slice(b",\"next\":null}\n"),
    }
    place.unread.set(out.len());
    server.metrics.transactions.note(start.elapsed());
    let response = Response::whole("application/json; charset=utf-8", out)
        .with("ripsawbean-timestamp", timestamp.to_string())
        .with("cache-control", "no-cache")
        .keeping(place)
        .resting_on(rests);
    Ok(match next {
        Some(next) => response.with("link", format!("<{next}>; rel=\"next\"")),
        None => response,
    })
}

/// A page, in turns of a part each. Behind the first one it has the lane until it is whole: many parts are long work,
/// though none of them is.
async fn in_turns(
    server: &Server,
    mut span: Bounds<'_>,
    at: Option<u64>,
    until: Instant,
    limit: usize,
    hold: &Wanted,
    unread: &Held,
) -> Result<Shown, Refusal> {
    let mut reading = Reading::new(server, limit);
    let mut part = |core: &mut Core, span: &Bounds<'_>, at| match unread.has_room() {
        true => reading.part(core, span, at, hold),
        false => Err(Refusal::crowded()),
    };
    let first = |core: &mut Core, at| Ok((at, part(core, &span, at)?));
    let (timestamp, read) = at_snapshot(server, hold.by(), at, until, Length::Short, first).await?;
    let next = match read {
        Read::All(next) => next,
        Read::Part(lo) => {
            span.lo = Cow::Owned(lo);
            let others =
                server.door.turns_in_lane(Permit::of(hold.by()), |core, _| match part(core, &span, timestamp) {
                    Ok(Read::Part(lo)) => {
                        span.lo = Cow::Owned(lo);
                        None
                    }
                    Ok(Read::All(next)) => Some(Ok(next)),
                    Err(refusal) => Some(Err(refusal)),
                });
            others.await?
        }
    };
    Ok(Shown { timestamp, rows: std::mem::take(&mut reading.rows), next, rests: reading.rests })
}

/// Works so long at a snapshot, once it is closed: at the closed timestamp where none is asked for.
pub async fn at_snapshot<R>(
    server: &Server,
    client: &Client,
    at: Option<u64>,
    until: Instant,
    length: Length,
    mut work: impl FnMut(&mut Core, u64) -> Result<R, Refusal>,
) -> Result<R, Refusal> {
    let mut moved = server.door.moved();
    loop {
        moved.borrow_and_update();
        let worked = server.door.turn_of(length, client, |core, _| match at {
            Some(at) if at > core.ledger.closed.max(core.ledger.greatest) => {
                let why = "this timestamp is above all that began";
                Some(Err(Refusal::new(409, "notclosed", why).with_number("closed", core.ledger.closed)))
            }
            Some(at) if at > core.ledger.closed => None,
            Some(at) if at < core.ledger.horizon => Some(Err(Stop::BelowHorizon(core.ledger.horizon).refusal())),
            at => Some(work(core, at.unwrap_or(core.ledger.closed))),
        });
        if let Some(worked) = worked.await.0 {
            return worked;
        }
        if tokio::time::timeout_at(until.into(), moved.changed()).await.is_err() {
            let closed = server.door.run(|core| core.ledger.closed);
            return Err(Refusal::busy("notclosed", "an older transaction is undecided").with_number("closed", closed));
        }
    }
}

/// A page of which some is read. Its snapshot is held by a protection of its own until it is whole, or nobody wants it.
struct Reading<'s> {
    server: &'s Server,
    rows: Vec<Row<'static>>,
    left: Room,
    protection: Option<u64>,
    rests: Ticket,
}

/// Where what is behind a part begins.
enum Read {
    /// The next part of the page.
    Part(Vec<u8>),
    /// The next page, where there is one: the page is whole.
    All(Option<Vec<u8>>),
}

impl Reading<'_> {
    fn new(server: &Server, limit: usize) -> Reading<'_> {
        let left = Room { rows: limit as u64, bytes: MOST_BYTES };
        Reading { server, rows: Vec::new(), left, protection: None, rests: Ticket::NONE }
    }

    fn part(&mut self, core: &mut Core, span: &Bounds<'_>, timestamp: u64, hold: &Wanted) -> Result<Read, Refusal> {
        let room = Room { rows: self.left.rows.min(PART.rows), bytes: self.left.bytes.min(PART.bytes) };
        core.journal.begin();
        let page = core.page_until(span.span(), timestamp, room, Instant::now() + TURN);
        self.rests = self.rests.max(core.journal.needed());
        let page = page.map_err(|unread| Stop::from(unread).refusal())?;
        let keys: Vec<&[u8]> = page.rows.iter().map(|(key, _)| key.as_slice()).collect();
        let versions = core.versions_at(timestamp, &keys).map_err(|_| Stop::NoMemory.refusal())?;
        let count = keys.len() as u64;
        let is_full = count == self.left.rows || count < room.rows && room.bytes == self.left.bytes;
        self.left.rows -= count;
        self.left.bytes -= page.bytes();
        let rows = page.rows.into_iter().zip(versions);
        self.rows.extend(rows.map(|((key, value), version)| Row { key: Cow::Owned(key), value: Some(value), version }));
        match page.next {
            Some(next) if !is_full => {
                self.protect(core, timestamp)?;
                Ok(Read::Part(next))
            }
            next => {
                core.hold_wanted(timestamp, hold, next.is_some().then_some(HOLD))?;
                self.release(core);
                Ok(Read::All(next))
            }
        }
    }

    fn protect(&mut self, core: &mut Core, timestamp: u64) -> Result<(), Refusal> {
        if self.protection.is_none() {
            match core.ask(Owner::Server, Command::Protect { t: timestamp }) {
                Ok(Outcome::Protected { id, .. }) => self.protection = Some(id),
                // Its rows were just read, so it isn't below the horizon.
                _ => return Err(Stop::NoMemory.refusal()),
            }
        }
        Ok(())
    }

    fn release(&mut self, core: &mut Core) {
        if let Some(id) = self.protection.take() {
            core.release(id);
        }
    }
}

impl Drop for Reading<'_> {
    fn drop(&mut self) {
        let server = self.server;
        if self.protection.is_some() {
            server.door.run(|core| self.release(core));
        }
    }
}

fn limit_in(given: &Arguments) -> Result<usize, Refusal> {
    match given.number("limit").unwrap_or(ROWS) {
        limit @ 1..=MOST_ROWS => Ok(limit as usize),
        _ => Err(Refusal::new(400, "number", format!("limit has to be a number from 1 to {MOST_ROWS}"))),
    }
}

fn span_in(given: &Arguments) -> Result<Bounds<'_>, Refusal> {
    let [lo, hi] = ["lo", "hi"].map(|name| given.bytes(name).unwrap_or_default());
    if lo.len().max(hi.len()) > MOST_BOUND {
        return Err(Refusal::new(400, "keylength", format!("a bound has {MOST_BOUND} bytes at most")));
    }
    Ok(Bounds::new(Cow::Borrowed(lo), Cow::Borrowed(hi)))
}

/// The path of the page behind, which asks for the same otherwise.
fn path_of(given: &Arguments, lo: &[u8], at: u64) -> String {
    let mut path = format!("/rows?lo={}", percent_encoded(lo));
    let mut add = |name: &str, word: &str| path.extend(["&", name, "=", word]);
    if let Some(hi) = given.bytes("hi").filter(|hi| !hi.is_empty()) {
        add("hi", &percent_encoded(hi));
    }
    add("at", &at.to_string());
    if let Some(limit) = given.number("limit") {
        add("limit", &limit.to_string());
    }
    for name in ["hold", "wait", "bytes"] {
        if let Some(word) = given.bytes(name) {
            add(name, &percent_encoded(word));
        }
    }
    path
}

#[cfg(test)]
mod tests {
    use super::*;
    use crate::cuts::Cuts;
    use crate::gate::{Keys, Right, Who};
    use crate::testing::{answers, ask, end, say, server, session, status, tidy, waits, Dice};

    const NAMES: [&str; 7] = ["lo", "hi", "at", "limit", "hold", "wait", "bytes"];

    fn protections(server: &Server) -> usize {
        server.door.run(|core| core.ledger.protections.len())
    }

    #[tokio::test]
    async fn a_page_that_is_read_in_parts_is_that_of_one_call() {
        let (server, mut dice) = (server(&["--keep", "10"]), Dice::new(11));
        server.door.run(|core| {
            core.cuts = Cuts::of(u64::MAX);
            let mut one = session(core);
            for _ in 0..20 {
                let mut put =
                    |_| format!("put . k{:05} {}\n", dice.below(9000), "v".repeat(dice.below(65_536) as usize));
                let puts: String = (0..15).map(&mut put).collect();
                say(core, &mut one, &format!("begin\n{puts}commit .\n"));
            }
            let short: String = (0..3000).map(|at| format!("put . l{at:05} v\n")).collect();
            say(core, &mut one, &format!("begin\n{short}commit .\n"));
        });
        let (at, unread) = (server.door.run(|core| core.ledger.closed), server.unread.begin(&crate::testing::LOOPBACK));
        let mut ends = [0; 3];
        for _ in 0..100 {
            let lo = format!("{}{:05}", dice.of(&["k", "l"]), dice.below(9000)).into_bytes();
            let (span, limit) = (Bounds::new(Cow::Owned(lo), Cow::default()), 1 + dice.below(4000) as usize);
            let whole = server.door.run(|core| core.page(span.span(), at, limit)).expect("a page");
            let read = in_turns(&server, span, None, Instant::now(), limit, &Wanted::unsaid(), &unread).await;
            let read = read.expect("a page");
            ends[usize::from(whole.next.is_some()) + usize::from(whole.next.is_some() && whole.rows.len() < limit)] +=
                1;
            assert_eq!((read.timestamp, read.rows.len(), &read.next), (at, whole.rows.len(), &whole.next), "{limit}");
            let rows = read.rows.into_iter().map(|row| (row.key.into_owned(), row.value.expect("it has one")));
            assert!(rows.eq(whole.rows));
        }
        // One snapshot is held, for the pages behind.
        assert!(ends.iter().all(|&count| count > 10) && protections(&server) == 1, "{ends:?}");
    }

    #[tokio::test]
    async fn its_snapshot_is_held_as_long_as_a_page_is_read() {
        let server = server(&["--history", "0"]);
        let puts: String = (0..3000).map(|at| format!("put . k{at:05} v\n")).collect();
        let (dels, unread) =
            (puts.replace("put", "del").replace(" v\n", "\n"), server.unread.begin(&crate::testing::LOOPBACK));
        let change = |lines: &str| {
            server.door.run(|core| {
                let mut one = session(core);
                say(core, &mut one, &format!("begin\n{lines}commit .\n"));
                tidy(core);
                end(core, &one);
            });
        };
        let unsaid = Wanted::unsaid();
        let read = || Box::pin(in_turns(&server, Bounds::default(), None, Instant::now(), 10_000, &unsaid, &unread));
        change(&puts);
        let mut page = read();
        assert!(waits(page.as_mut()).await && protections(&server) == 1);
        change(&dels);
        // By the first one it is let go what was held, and by the next one it is collected.
        let tidied = || (0..2).for_each(|_| server.door.run(tidy));
        tidied();
        let Shown { timestamp, rows, next, .. } = page.await.expect("a page");
        assert_eq!((timestamp, rows.len(), next, protections(&server)), (1, 3000, None, 0));
        tidied();
        assert_eq!(server.door.run(|core| core.ledger.horizon), 2);
        // Who goes away holds it no longer.
        change(&puts);
        let mut page = read();
        assert!(waits(page.as_mut()).await && protections(&server) == 1);
        drop(page);
        assert_eq!((protections(&server), server.door.run(|core| core.shouts)), (0, 0));
    }

    #[test]
    fn the_next_path_asks_for_the_same() {
        for (query, next) in [
            ("", "/rows?lo=c%00&at=7"),
            ("lo=a&hi=", "/rows?lo=c%00&at=7"),
            (
                "lo=a&hi=z%20%26&limit=2&hold=5&bytes=base64",
                "/rows?lo=c%00&hi=z%20%26&at=7&limit=2&hold=5&bytes=base64",
            ),
            ("at=7&wait=0.5", "/rows?lo=c%00&at=7&wait=0.5"),
        ] {
            let given = arguments("/rows", query, &NAMES).expect("a query");
            let path = path_of(&given, b"c\0", 7);
            assert_eq!(path, next);
            assert!(arguments("/rows", path.strip_prefix("/rows?").expect("a query"), &NAMES).is_ok());
        }
    }

    #[tokio::test]
    async fn rows_outside_of_a_span_are_not_told() {
        let server = server(&[]);
        let few = Who::of("few", &[Right::Read]).with_keys(Keys { lo: b"b".to_vec(), hi: Some(b"d".to_vec()) });
        for (query, told) in [
            ("", (403, "keys")),
            ("?lo=b", (403, "keys")),
            ("?lo=a&hi=c", (403, "keys")),
            ("?lo=b&hi=d%00", (403, "keys")),
            ("?lo=b&hi=d", (200, "")),
        ] {
            assert_eq!(status(ask(&server, &few, &format!("GET /rows{query}"), &[], "").await), told, "{query}");
        }
    }

    #[tokio::test]
    async fn a_snapshot_that_has_begun_is_waited_for() {
        let server = server(&[]);
        let mut one = server.door.run(session);
        assert_eq!(server.door.run(|core| answers(core, &mut one, "begin\n")), ["started"]);
        assert_eq!(status(ask(&server, &Who::anyone(), "PUT /key/a", &[], "1").await), (200, ""));
        for (query, told) in
            [("?at=2&wait=0", (503, "notclosed")), ("?at=3&wait=0", (409, "notclosed")), ("?at=0&wait=0", (200, ""))]
        {
            let answered = ask(&server, &Who::anyone(), &format!("GET /rows{query}"), &[], "").await;
            assert_eq!(status(answered), told, "{query}");
        }
        let ends = async {
            tokio::task::yield_now().await;
            server.door.run(|core| answers(core, &mut one, "commit .\n"))
        };
        let who = Who::anyone();
        let (told, _) = tokio::join!(ask(&server, &who, "GET /rows?at=2&wait=30", &[], ""), ends);
        assert_eq!(status(told), (200, ""));
    }

    #[tokio::test]
    async fn a_page_counts_until_it_is_taken_and_waits_for_no_room() {
        let server = server(&[]);
        for key in ["a", "b"] {
            let value = "x".repeat(50_000);
            assert_eq!(status(ask(&server, &Who::anyone(), &format!("PUT /key/{key}"), &[], &value).await), (200, ""));
        }
        let who = Who::anyone();
        let page = || ask(&server, &who, "GET /rows", &[], "");
        let told = page().await.expect("a page");
        assert!(told.length() > 100_000 && !server.unread.is_empty());
        drop(told);
        assert!(server.unread.is_empty());
        let mut unread = server.unread.begin(&crate::testing::LOOPBACK);
        unread.set(2 * crate::session::UNREAD);
        assert_eq!(status(page().await), (503, "answers"));
        drop(unread);
        assert_eq!(status(page().await), (200, ""));
    }

    #[tokio::test]
    async fn a_page_holds_its_snapshot_where_more_follow_unless_it_is_to_hold_none() {
        let server = server(&[]);
        let body = r#"{"then":[{"put":"a","value":""},{"put":"b","value":""}]}"#;
        assert_eq!(status(ask(&server, &Who::anyone(), "POST /transact", &[], body).await), (200, ""));
        for (query, next, held) in [
            ("", None, 0),
            ("?limit=1&hold=0", Some("</rows?lo=b&at=1&limit=1&hold=0>; rel=\"next\""), 0),
            ("?limit=1", Some("</rows?lo=b&at=1&limit=1>; rel=\"next\""), 1),
        ] {
            let told = ask(&server, &Who::anyone(), &format!("GET /rows{query}"), &[], "").await.expect("a page");
            let link = told.headers.iter().find(|(name, _)| *name == "link").map(|(_, link)| link.as_str());
            assert_eq!(link, next, "{query}");
            assert_eq!(server.door.run(|core| core.ledger.protections.len()), held, "{query}");
        }
        server.door.run(|core| core.release(1));
        assert_eq!(status(ask(&server, &Who::anyone(), "GET /rows?hold=9", &[], "").await), (200, ""));
        assert_eq!(server.door.run(|core| core.ledger.protections.len()), 1, "the last page, as it is asked");
    }

    #[test]
    fn limits_and_bounds() {
        let error = |query: &str| {
            let given = arguments("/rows", query, &NAMES)?;
            limit_in(&given).and(span_in(&given).map(drop))
        };
        for query in ["limit=0", "limit=10001"] {
            assert_eq!(error(query).unwrap_err().error, "number", "{query}");
        }
        let long = format!("lo={}", "x".repeat(258));
        assert_eq!(error(&long).unwrap_err().error, "keylength");
        assert!(error(&long[..long.len() - 1]).is_ok() && error("limit=10000").is_ok());
    }
}
