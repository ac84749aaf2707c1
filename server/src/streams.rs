//! `GET /feed`: a feed's messages as a stream, pushed when closed moves.
//!
//! A stream has a feed of the database, under the server's own seat. Here it is opened, and has its place among
//! --max-feeds. `stream` is its life.
//!
//! ```text
//! GET /feed?lo=a&hi=b                openinitial a b CLOSED
//! GET /feed?from=7&identity=I&gap=3  openevery - - 7 3
//! ```
//!
//! 1. What is refused opens no feed, or cancels it before the answer.
//! 2. `open` counts the streams from their feed's opening to their end.

use crate::core::Core;
use crate::door::Length;
use crate::form::Form;
use crate::gate::Right;
use crate::http::{Request, Response};
use crate::json::Object;
use crate::ledger::{Name, Reason};
use crate::names::{name_in, not_closed};
use crate::outcome::{name_of, Outcome};
use crate::query::{arguments, flag_in, Arguments};
use crate::refusal::Refusal;
use crate::routes::Server;
use crate::seats::Owner;
use crate::shares::{Client, Held, Table};
use crate::snapshot::Snapshot;
use crate::stream::{Before, Stream};
use ripsawbean::{CallError, Command, Refusal as Refused, Span};
use std::sync::atomic::{AtomicU64, Ordering::Relaxed};
use std::sync::Arc;

/// What all streams have in common, as `metrics` tells it.
pub struct Streams {
    places: Arc<Table>,
    messages: AtomicU64,
    bytes: AtomicU64,
}

/// A stream's place among --max-feeds.
pub struct Place {
    server: Arc<Server>,
    held: Held,
}

/// What an answer's headers say of its stream.
struct Opened {
    identity: String,
    from: u64,
    feed: u64,
    generation: Option<u64>,
}

impl Streams {
    /// So many may be open.
    pub fn new(most: usize) -> Streams {
        let places = Table::of_places(most, "feeds", "streams");
        Streams { places, messages: AtomicU64::new(0), bytes: AtomicU64::new(0) }
    }

    /// Streams that are open.
    pub fn open(&self) -> u64 {
        self.places.taken() as u64
    }

    /// Messages that all streams were told, and bytes that they were sent.
    pub fn told(&self) -> (u64, u64) {
        (self.messages.load(Relaxed), self.bytes.load(Relaxed))
    }

    pub fn tell(&self, messages: u64, bytes: usize) {
        self.messages.fetch_add(messages, Relaxed);
        self.bytes.fetch_add(bytes as u64, Relaxed);
    }
}

impl Place {
    pub fn take(server: &Arc<Server>, client: &Client) -> Result<Place, Refusal> {
        Ok(Place { held: server.streams.places.take(client)?, server: server.clone() })
    }

    pub fn server(&self) -> &Server {
        &self.server
    }

    /// Whose stream it is.
    pub fn client(&self) -> &Client {
        self.held.client()
    }
}

impl Opened {
    fn generation(&self) -> Option<String> {
        self.generation.map(|generation| generation.to_string())
    }

    fn text(&self) -> String {
        let object = Object::new().text("identity", self.identity.as_str()).digits("from", self.from);
        let object = object.digits("feed", self.feed);
        match self.generation {
            Some(generation) => object.digits("generation", generation).end(),
            None => object.end(),
        }
    }
}

pub async fn feed(server: &Arc<Server>, request: Request) -> Result<Response, Refusal> {
    let given = asked(&request)?;
    let is_before = flag_in(&given, "before")?;
    if !request.who.keys().covers(span_of(&given).lo, span_of(&given).hi) {
        return Err(Refusal::other_keys());
    }
    let name = given.bytes("consumer").map(name_in).transpose()?;
    // It takes the name from the stream before, and a new name holds the horizon.
    if name.is_some() && !request.who.may(Right::Consume) {
        return Err(Refusal::no_right(Right::Consume));
    }
    let turn = server.door.turn_of(Length::Short, &request.client, |core, _| {
        let opened = open(server, core, &request.client, &given, name.as_ref());
        opened.inspect(|_| name.iter().for_each(|name| core.give_name(name, &request.who)))
    });
    let (place, opened, snapshot) = turn.await.0?;
    let form = Form::asked(&request.list("accept"), &opened.identity);
    let (response, sender) = Response::stream(form.content_type());
    let opening = form.opening(&opened.text());
    let before = is_before.then(|| Before { initial: (!given.has("from")).then_some(opened.from) });
    let stream = Stream::new(place, opened.feed, form, sender, request.connection.clone());
    let stream = stream.with(before).behind(snapshot);
    request.connection.exempt();
    server.spawn(stream.run(opening));
    let response = response
        .with("cache-control", "no-store")
        // Proxies that gather an answer know this, and hand on each piece as it comes.
        .with("x-accel-buffering", "no")
        .with("ripsawbean-from", opened.from.to_string())
        .with("ripsawbean-feed", opened.feed.to_string());
    Ok(match opened.generation() {
        Some(generation) => response.with("ripsawbean-generation", generation),
        None => response,
    })
}

/// The query, and where a browser's `EventSource` goes on by itself, the place that it names.
fn asked(request: &Request) -> Result<Arguments, Refusal> {
    let names = ["lo", "hi", "from", "gap", "identity", "consumer", "before"];
    let mut given = arguments(&request.path, &request.query, &names)?;
    if let Some((identity, place)) = request.header("last-event-id").and_then(place_in) {
        given.set_bytes("identity", identity.to_vec());
        given.set_number("from", place);
    }
    Ok(given)
}

/// The identity and the timestamp of an event's id.
fn place_in(id: &[u8]) -> Option<(&[u8], u64)> {
    let colon = id.iter().position(|byte| *byte == b':')?;
    let (identity, place) = (&id[..colon], &id[colon + 1..]);
    let place = std::str::from_utf8(place).ok().filter(|word| word.bytes().all(|byte| byte.is_ascii_digit()))?;
    Some((identity, place.parse().ok()?))
}

fn open(
    server: &Arc<Server>,
    core: &mut Core,
    client: &Client,
    given: &Arguments,
    name: Option<&Name>,
) -> Result<(Place, Opened, Option<Snapshot>), Refusal> {
    name.map_or(Ok(()), |name| core.names.check_room(name, client))?;
    core.check_identity(given, given.has("from"))?;
    if given.number("from") > Some(core.ledger.closed) {
        return Err(not_closed(core.ledger.closed));
    }
    let place = Place::take(server, client)?;
    let snapshot = if given.has("from") { None } else { Snapshot::in_pages(core, span_of(given)) };
    let feed = open_feed(core, given, snapshot.is_some())?;
    let generation =
        name.map(|name| core.follow(name, feed, client)).transpose().inspect_err(|_| core.end_stream(feed))?;
    let from = core.ledger.feeds.get(&feed).map_or(core.ledger.closed, |feed| feed.floor);
    Ok((place, Opened { identity: core.identity.clone(), from, feed, generation }, snapshot))
}

/// The span that is asked for. No bound and one of no bytes are the same.
fn span_of(given: &Arguments) -> Span<'_> {
    Span { lo: given.bytes("lo").unwrap_or_default(), hi: given.bytes("hi").filter(|hi| !hi.is_empty()) }
}

/// The number of a new feed of the server's own. What it would begin with may be told by others.
fn open_feed(core: &mut Core, given: &Arguments, is_begun: bool) -> Result<u64, Refusal> {
    let span = span_of(given);
    let closed = core.ledger.closed;
    let from = given.number("from").or(is_begun.then_some(closed));
    let command = match (from, given.number("gap")) {
        (Some(cursor), None) => Command::Open { span, cursor },
        (Some(cursor), Some(gap)) => Command::OpenEvery { span, cursor, gap },
        (None, None) => Command::OpenInitial { span, cursor: closed },
        (None, Some(gap)) => Command::OpenInitialEvery { span, cursor: closed, gap },
    };
    match core.ask(Owner::Server, command) {
        Ok(Outcome::Opened { feed, .. }) => Ok(feed),
        Ok(Outcome::Refused(refused)) => Err(not_opened(core, refused)),
        Err(CallError::Line(fault)) => Err(Refusal::new(400, fault.name(), "a bound has 257 bytes at most")),
        Ok(_) | Err(_) => Err(Refusal::no_memory()),
    }
}

fn not_opened(core: &Core, refused: Refused) -> Refusal {
    let status = match refused {
        Refused::GapRange => 400,
        Refused::NoMemory => 503,
        _ => 409,
    };
    let why = "the database opens no such feed";
    Refusal::new(status, name_of(refused), why).with_number("horizon", core.ledger.horizon)
}

impl Core {
    /// Cancels the feed of a stream that is no more, where it lives, and forgets how it has ended.
    pub fn end_stream(&mut self, feed: u64) {
        self.stop_feed(feed, Reason::Gone);
        self.ledger.take_end(feed);
    }
}

#[cfg(test)]
mod tests {
    use super::*;

    #[test]
    fn an_events_id_is_an_identity_and_a_timestamp() {
        assert_eq!(place_in(b"0f3a:17"), Some((&b"0f3a"[..], 17)));
        assert_eq!(place_in(b":0"), Some((&b""[..], 0)));
        assert_eq!(place_in(b"a:9999999999999999999"), Some((&b"a"[..], 9_999_999_999_999_999_999)));
        for id in ["", "0f3a", "0f3a:", "0f3a:x", "0f3a:+1", "0f3a:1:2", "0f3a:99999999999999999999"] {
            assert_eq!(place_in(id.as_bytes()), None, "{id}");
        }
    }

    #[tokio::test(start_paused = true)]
    async fn a_connection_whose_reader_takes_no_end_is_cut() {
        let server = crate::testing::server(&[]);
        let connection = server.connections.come(([127, 0, 0, 1], 1).into()).expect("a place");
        let place = Place::take(&server, &crate::testing::LOOPBACK).expect("a place");
        let feed = server.door.run(|core| open_feed(core, &Arguments::default(), false)).expect("a feed");
        let (_response, sender) = Response::stream("application/x-ndjson");
        let stream = Stream::new(place, feed, Form::JsonLines, sender, connection.clone());
        connection.exempt();
        let running = tokio::spawn(stream.run("nobody takes this".into()));
        tokio::time::sleep(std::time::Duration::from_secs(1)).await;
        assert!(!connection.is_cut());
        server.door.run(|core| core.stop_feed(feed, Reason::Lag));
        running.await.expect("it ends");
        assert!(connection.is_cut());
        assert_eq!((server.streams.open(), server.connections.open()), (0, 0));
    }

    #[test]
    fn what_headers_say_is_told_first() {
        let mut opened = Opened { identity: "0f3a".into(), from: 7, feed: 2, generation: None };
        assert_eq!(opened.text(), r#"{"identity":"0f3a","from":"7","feed":"2"}"#);
        opened.generation = Some(5);
        assert_eq!(opened.text(), r#"{"identity":"0f3a","from":"7","feed":"2","generation":"5"}"#);
    }
}
