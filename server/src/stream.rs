//! The life of one stream: it polls its feed alone, and pushes what is told.
//!
//! It polls once closed has moved, and again where there may be more. While a piece waits for its reader it doesn't poll,
//! so a slow reader costs what the horizon keeps for it and no buffers. Its last message says why it ends:
//!
//! ```text
//! lag              more than --max-lag is closed above the feed's floor (`closing` ends it)
//! fenced           a later stream of the same consumer was opened
//! deleted          the consumer was deleted
//! feedcancelled    somebody has cancelled the feed
//! shutdown         the server ends
//! ```
//!
//! A stream that just stops was cut. In both cases its reader goes on from what it has stored.
//!
//! 1. What was polled is written to the connection, or the connection is cut. So a reader that reads on is told each
//!    message, once.
//! 2. The feed lives as long as the stream, and no longer.
//! 3. One piece waits for a reader, of at most `ENOUGH` bytes and one poll more.
//! 4. A poll passes over what was written outside of its span, which may be much. So a stream takes the lane for its first
//!    poll, behind one that was long, and where it stands far behind because of its reader.

use crate::api::pages::Unread;
use crate::before::with_before;
use crate::connections::Connection;
use crate::core::Core;
use crate::door::Length;
use crate::form::Form;
use crate::http::{Gone, Sender};
use crate::journal::Ticket;
use crate::json::Object;
use crate::ledger::Ended;
use crate::outcome::Outcome;
use crate::pace;
use crate::snapshot::Snapshot;
use crate::streams::Place;
use bytes::Bytes;
use ripsawbean::Refusal as Refused;
use std::sync::Arc;
use std::time::Duration;
use tokio::sync::watch;
use tokio::time::{sleep, timeout, Instant};

/// A stream that has told nothing for so long says so once, at the next look of each second: then a consumer stores its
/// place, which would be old until the next message.
const QUIET: Duration = Duration::from_millis(100);
/// From then on it is written to so often, so that a reader that is gone is found out.
const IDLE: Duration = Duration::from_secs(15);
/// A reader that has no room for so long is one that others don't wait for.
const SOON: Duration = Duration::from_millis(5);
/// A stream whose reader has no room looks so often whether its feed has ended. One without memory polls so often.
const LOOK: Duration = Duration::from_millis(250);
/// Bytes of a piece at which no further poll is added to it.
const ENOUGH: usize = 1 << 15;

/// See the module.
pub struct Stream {
    place: Place,
    feed: u64,
    /// What is to be told before the feed's messages.
    snapshot: Option<Snapshot>,
    before: Option<Before>,
    form: Form,
    sender: Sender,
    connection: Arc<Connection>,
    moved: watch::Receiver<u64>,
    /// Where closed stood when all was told.
    seen: Option<u64>,
    /// Whether the ledger says that its reader has no room.
    waits: bool,
    /// How long its next poll may be.
    length: Length,
    written: Instant,
    /// Whether it has said that it tells nothing.
    is_quiet: bool,
}

/// Rows are told with the values before.
#[derive(Clone, Copy, Debug)]
pub struct Before {
    /// The timestamp of the rows that the feed begins with, where it does.
    pub initial: Option<u64>,
}

/// Why a stream goes on no longer.
enum Stop {
    /// Its feed has ended.
    Ended(Ended),
    /// Its reader is gone, or has to be.
    Gone,
}

/// Messages, a line each, and what comes next.
struct Told {
    text: Vec<u8>,
    count: u64,
    next: Next,
    /// What they rest on.
    rests: Ticket,
}

enum Next {
    /// There may be more to poll.
    Poll,
    /// The snapshot is told, and the feed comes next.
    Feed,
    /// There was no memory for more.
    Pause,
    /// All is told until closed moves.
    Wait,
    /// Messages that were polled are lost for want of memory.
    Cut,
}

impl Stream {
    pub fn new(place: Place, feed: u64, form: Form, sender: Sender, connection: Arc<Connection>) -> Stream {
        Stream {
            moved: place.server().door.moved(),
            place,
            feed,
            snapshot: None,
            before: None,
            form,
            sender,
            connection,
            seen: None,
            waits: false,
            length: Length::Long,
            written: Instant::now(),
            is_quiet: false,
        }
    }

    /// Tells each row with the value before.
    pub fn with(self, before: Option<Before>) -> Stream {
        Stream { before, ..self }
    }

    /// Tells this before the feed's messages.
    pub fn behind(self, snapshot: Option<Snapshot>) -> Stream {
        Stream { snapshot, ..self }
    }

    /// Follows the feed to its end. The last message waits for its reader, but not for ever.
    pub async fn run(mut self, opening: Bytes) {
        let mut went = self.send(opening).await;
        let stop = loop {
            match went {
                Ok(()) => went = self.step().await,
                Err(stop) => break stop,
            }
        };
        self.place.server().door.run(|core| core.end_stream(self.feed));
        if let Stop::Ended(ended) = &stop {
            let fields = [("feed", self.feed.into()), ("why", ended.reason.name().into())];
            self.place.server().log.info("stream_ended", &fields);
        }
        let is_told = match stop {
            Stop::Ended(ended) => timeout(self.place.server().options.patience, self.tell(ended)).await == Ok(Ok(())),
            Stop::Gone => false,
        };
        if !is_told {
            self.sender.cut();
            // It is exempt as long as its answer isn't taken, and its reader may never take it.
            self.connection.cut();
        }
    }

    async fn step(&mut self) -> Result<(), Stop> {
        self.room().await?;
        let told = self.look().await?;
        if !told.text.is_empty() {
            let piece = self.form.messages(told.text.into());
            self.place.server().streams.tell(told.count, piece.len());
            self.place.server().door.until(told.rests).await;
            self.send(piece).await?;
        }
        match told.next {
            // Others get a turn while it catches up.
            Next::Poll | Next::Feed => tokio::task::yield_now().await,
            Next::Pause => sleep(LOOK).await,
            Next::Cut => return Err(Stop::Gone),
            Next::Wait if self.written.elapsed() > if self.is_quiet { IDLE } else { QUIET } => {
                self.send(self.form.idle()).await?;
                self.is_quiet = true;
            }
            Next::Wait => tokio::select! {
                // It changes each second. The door lives as long as the stream's place.
                _ = self.moved.changed() => {}
                () = self.sender.gone() => return Err(Stop::Gone),
            },
        }
        Ok(())
    }

    /// Waits until the reader has room, or the feed has ended.
    async fn room(&mut self) -> Result<(), Stop> {
        let mut look = SOON;
        loop {
            if let Ok(room) = timeout(look, self.sender.room()).await {
                return room.map_err(|Gone| Stop::Gone);
            }
            look = LOOK;
            self.waits = true;
            let (ended, is_far) = self.place.server().door.run(|core| {
                core.ledger.set_waits(self.feed, true);
                (core.ledger.take_end(self.feed), core.ledger.is_far_behind(self.feed))
            });
            if is_far {
                self.length = Length::Long;
            }
            if let Some(ended) = ended {
                return Err(Stop::Ended(ended));
            }
        }
    }

    /// The next messages.
    async fn look(&mut self) -> Result<Told, Stop> {
        self.moved.borrow_and_update();
        let turned = self.place.server().door.turn_of(self.length, self.place.client(), |core, _| {
            if let Some(ended) = core.ledger.take_end(self.feed) {
                return Err(Stop::Ended(ended));
            }
            if self.waits {
                core.ledger.set_waits(self.feed, false);
            }
            let closed = core.ledger.closed;
            if self.seen == Some(closed) {
                return Ok((Told::nothing(), closed));
            }
            core.journal.begin();
            let told = match &mut self.snapshot {
                Some(snapshot) => paged(core, self.feed, snapshot, self.before),
                None => {
                    let told = polled(core, self.feed, self.before);
                    Told { rests: core.journal.needed(), ..told }
                }
            };
            Ok((told, closed))
        });
        let (looked, length) = turned.await;
        let (told, closed) = looked?;
        self.length = length;
        self.waits = false;
        self.snapshot.take_if(|_| matches!(told.next, Next::Feed));
        self.seen = matches!(told.next, Next::Wait).then_some(closed);
        Ok(told)
    }

    async fn send(&mut self, piece: Bytes) -> Result<(), Stop> {
        (self.written, self.is_quiet) = (Instant::now(), false);
        self.place.server().door.until(Ticket::NONE).await;
        self.sender.send(piece).await.map_err(|Gone| Stop::Gone)
    }

    /// Tells why it ends, behind what was told before.
    async fn tell(&self, ended: Ended) -> Result<(), Gone> {
        self.place.server().door.until(Ticket::NONE).await;
        let values = Object::new().text("end", ended.reason.name()).digits("floor", ended.floor).end();
        self.sender.send(self.form.ending(&values)).await?;
        self.sender.room().await
    }
}

impl Told {
    fn nothing() -> Told {
        Told { text: Vec::new(), count: 0, next: Next::Wait, rests: Ticket::NONE }
    }
}

/// Polls until there is enough for a piece, or all is told.
fn polled(core: &mut Core, feed: u64, before: Option<Before>) -> Told {
    let room = if before.is_some() { pace::WITH_BEFORE } else { pace::PLAIN };
    let mut told = Told::nothing();
    loop {
        let start = told.text.len();
        let count = match core.poll(feed, room, &mut told.text) {
            Ok(Outcome::Messages { count, .. }) => count,
            Ok(Outcome::Refused(Refused::NoMemory)) => return Told { next: Next::Pause, ..told },
            Ok(_) => return told,
            Err(_) => return Told { next: Next::Cut, ..told },
        };
        let is_all = pace::is_all(room, count, told.text.len() - start);
        if let Some(Before { initial }) = before {
            match with_before(core, &told.text.split_off(start), initial) {
                Ok(text) => told.text.extend(text),
                Err(_) => return Told { next: Next::Cut, ..told },
            }
        }
        told.count += count;
        if is_all {
            return told;
        }
        if told.text.len() >= ENOUGH {
            return Told { next: Next::Poll, ..told };
        }
    }
}

/// The next page of what comes before the feed's messages.
fn paged(core: &mut Core, feed: u64, snapshot: &mut Snapshot, before: Option<Before>) -> Told {
    let mut told = Told::nothing();
    let page = match snapshot.tell(core, pace::PLAIN, &mut told.text) {
        Ok(page) => page,
        Err(Unread::NoMemory) => return Told { next: Next::Pause, ..told },
        // The feed holds it.
        Err(Unread::BelowHorizon(_)) => return Told { next: Next::Cut, ..told },
    };
    core.ledger.told(feed, page.count, 0);
    if let Some(Before { initial }) = before {
        match with_before(core, &told.text, initial) {
            Ok(text) => told.text = text,
            Err(_) => return Told { next: Next::Cut, ..told },
        }
    }
    let next = if page.is_last { Next::Feed } else { Next::Poll };
    Told { count: page.count, next, rests: core.journal.all(), ..told }
}

#[cfg(test)]
pub mod tests {
    use super::*;
    use crate::seats::{Owner, Session};
    use crate::testing::{core, put, say, session};
    use ripsawbean::{Command, Span};

    fn with_feed() -> (Core, Session, u64) {
        let mut core = core(&[]);
        let session = session(&mut core);
        match core.ask(Owner::Server, Command::Open { span: Span::ALL, cursor: 0 }) {
            Ok(Outcome::Opened { feed, .. }) => (core, session, feed),
            other => panic!("{other:?}"),
        }
    }

    #[test]
    fn rows_are_lines_of_json_and_resolved_comes_last() {
        let (mut core, mut session, feed) = with_feed();
        put(&mut core, &mut session, &[("a", "1")]);
        let told = polled(&mut core, feed, None);
        let text = "{\"after\":\"MQ==\",\"key\":\"YQ==\",\"updated\":\"1\"}\n{\"resolved\":\"1\"}\n";
        assert_eq!((String::from_utf8(told.text).as_deref(), told.count), (Ok(text), 2));
        assert!(matches!(told.next, Next::Wait));
        assert!(polled(&mut core, feed, None).text.is_empty());
    }

    #[test]
    fn all_of_a_transaction_is_told_in_pieces_of_bounded_size() {
        let (mut core, mut session, feed) = with_feed();
        for (length, count) in [(10, 20_000), (65_536, 40)] {
            let value = "v".repeat(length);
            let puts: String = (0..count).map(|row| format!("put . {row} {value}\n")).collect();
            say(&mut core, &mut session, &format!("begin\n{puts}commit .\n"));
            let mut rows = 0;
            loop {
                let told = polled(&mut core, feed, None);
                assert!(told.text.len() < 150_000, "{} bytes at once", told.text.len());
                rows += told.text.split(|byte| *byte == b'\n').filter(|line| line.starts_with(b"{\"after\"")).count();
                if matches!(told.next, Next::Wait) {
                    break;
                }
                assert!(told.text.len() >= ENOUGH);
            }
            assert_eq!(rows, count);
        }
    }

    #[test]
    fn a_feed_that_was_cancelled_tells_nothing() {
        let (mut core, mut session, feed) = with_feed();
        put(&mut core, &mut session, &[("a", "1")]);
        core.end_stream(feed);
        assert!(polled(&mut core, feed, None).text.is_empty());
        assert_eq!(core.ledger.take_end(feed), None);
    }

    /// Whether a feed's messages are told without a pause. They are told behind one too, or the stream is cut.
    #[cfg(feature = "refusing")]
    pub fn is_told_at_once(core: &mut Core, feed: u64, messages: u64) -> bool {
        let (mut count, mut is_at_once) = (0, true);
        loop {
            let told = polled(core, feed, None);
            count += told.count;
            match told.next {
                Next::Cut => return false,
                Next::Wait => break,
                Next::Poll | Next::Feed => {}
                Next::Pause => is_at_once = false,
            }
        }
        assert_eq!(count, messages);
        is_at_once
    }
}
