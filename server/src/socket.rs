//! One session's WebSocket: its messages to lines, and their answers back.
//!
//! ```text
//! rest until something comes  ->  decode all that is whole  ->  answer in turns  ->  write  ->  rest
//! ```
//!
//! 1. Each message is answered by one message, in their order.
//! 2. Between two turns whatever has come is read, so pings are answered and a client that is gone is found out: lines
//!    that wait behind are then not taken any more.
//! 3. What is read ahead, and what waits to be written, has a bound, and so has the number of messages that wait. What
//!    all sessions together have to write has one too: a line whose answer may be long waits for the others' readers.
//! 4. A client that says nothing is asked by a ping after `--heartbeat`, and let go where it says nothing for half as
//!    long again.
//! 5. Whoever ends the session waits for one turn, and for a slow reader no longer than `LINGER`.
//! 6. The client is told why its session ends, wherever it can be told: see `end`.

mod end;

use crate::connections::Connection;
use crate::core::Core;
use crate::door::{Length, Turn};
use crate::http::Stream;
use crate::journal::Ticket;
use crate::lines::{Lines, Lost};
use crate::session::Seated;
use crate::shares::Held;
use crate::ws::{encode, Decoder, Incoming, Outgoing, HEAD};
use bytes::BytesMut;
use end::{say_goodbye, End, LINGER};
use std::collections::VecDeque;
use std::future::Future;
use std::sync::Arc;
use std::time::{Duration, Instant};
use tokio::io::{AsyncReadExt, AsyncWriteExt};
use tokio::time::{sleep, timeout};

/// Bytes of one read.
const READ: usize = 1 << 16;
/// Bytes of messages that wait behind the one that is answered, beyond which nothing more is read.
const AHEAD: usize = 1 << 16;
/// Bytes of answers beyond which they are written before the next message is taken.
const WRITE: usize = 1 << 16;
/// What a session has in hand beside a message and its answers: what is read ahead, read, and written.
pub const BESIDE: usize = 4 * (READ + AHEAD);
/// A session that waits for others' readers looks so often what its own client does.
const LOOK: Duration = Duration::from_millis(50);

pub struct Socket {
    stream: Box<dyn Stream>,
    connection: Arc<Connection>,
    seated: Seated,
    decoder: Decoder,
    buffer: BytesMut,
    /// Messages that were decoded and aren't answered.
    waiting: VecDeque<Waiting>,
    /// Their bytes, with those that a message takes beside its text.
    ahead: usize,
    out: Vec<u8>,
    /// What its client hasn't read counts here.
    unread: Held,
    /// How long its next turn may be.
    length: Length,
    /// Since when its next line waits for others' readers.
    crowded: Option<tokio::time::Instant>,
    /// What the answers among it rest on.
    rests: Ticket,
    /// Why the session ends, once all that waits is answered.
    end: Option<End>,
}

struct Waiting {
    lines: Lines,
    bytes: usize,
    since: Instant,
}

/// What woke a session that rests.
enum Woken {
    Read,
    Silence,
    End(End),
}

impl Socket {
    pub fn new(stream: Box<dyn Stream>, connection: Arc<Connection>, seated: Seated) -> Socket {
        Socket {
            stream,
            decoder: Decoder::new(seated.server.options.max_message),
            unread: seated.server.unread.begin(&seated.session.client),
            length: Length::Short,
            crowded: None,
            connection,
            seated,
            buffer: BytesMut::new(),
            waiting: VecDeque::new(),
            ahead: 0,
            out: Vec::new(),
            rests: Ticket::NONE,
            end: None,
        }
    }

    /// Serves the session to its end.
    pub async fn run(mut self) {
        let end = loop {
            match self.step().await {
                Ok(()) => {}
                Err(end) => break end,
            }
        };
        // What isn't durable isn't told at the end either.
        let is_durable = timeout(LINGER, self.seated.server.door.until(self.rests)).await.is_ok();
        let Socket { stream, seated, out, connection, unread: _unread, .. } = self;
        let (out, end) = if is_durable { (out, end) } else { (Vec::new(), end.without_answers()) };
        end.tell(&seated.server.log, seated.session.seat, &connection.peer.to_string());
        // The seat is free before the client reads that the session has ended.
        drop(seated);
        tokio::select! {
            () = say_goodbye(stream, out, end) => {}
            () = connection.cut_off() => {}
        }
    }

    async fn step(&mut self) -> Result<(), End> {
        self.answer_all().await?;
        if let Some(end) = self.end.take() {
            return Err(end);
        }
        self.rest().await
    }

    // ---- what comes

    /// Waits until something comes, and decodes it.
    async fn rest(&mut self) -> Result<(), End> {
        let heartbeat = self.seated.server.options.heartbeat;
        let mut is_asked = false;
        loop {
            let patience = if is_asked { heartbeat / 2 } else { heartbeat };
            match self.woken(patience).await {
                Woken::Read => {
                    self.decode()?;
                    // Whose bytes become no message for long lets others in behind each piece.
                    if self.waiting.is_empty() {
                        tokio::task::yield_now().await;
                    }
                    return Ok(());
                }
                Woken::End(end) => return Err(end),
                Woken::Silence if is_asked => return Err(End::HEARTBEAT),
                Woken::Silence => {
                    encode(Outgoing::Ping(b""), &mut self.out);
                    self.write().await?;
                    is_asked = true;
                }
            }
        }
    }

    async fn woken(&mut self, patience: Duration) -> Woken {
        self.buffer.reserve(READ);
        tokio::select! {
            biased; // after a while in which the server stood still, what has come goes before silence
            () = self.seated.server.ending() => Woken::End(End::SHUTDOWN),
            by = self.seated.session.told_to_end() => Woken::End(End::by(by)),
            () = self.connection.cut_off() => Woken::End(End::Stuck),
            read = self.stream.read_buf(&mut self.buffer) => match read {
                Ok(count) if count > 0 => Woken::Read,
                _ => Woken::End(self.lost()),
            },
            () = sleep(patience) => Woken::Silence,
        }
    }

    /// Reads what is there already, and lets others in.
    async fn look(&mut self) -> Result<(), End> {
        let first = self.waiting.front().map_or(0, |first| first.bytes);
        if self.ahead - first + self.decoder.begun() >= AHEAD || self.end.is_some() {
            tokio::task::yield_now().await;
            return Ok(());
        }
        self.buffer.reserve(READ);
        let read = tokio::select! {
            biased;
            read = self.stream.read_buf(&mut self.buffer) => Some(read),
            () = self.connection.cut_off() => return Err(End::Stuck),
            () = tokio::task::yield_now() => None,
        };
        match read {
            None => Ok(()),
            Some(Ok(count)) if count > 0 => self.decode(),
            Some(_) => Err(self.lost()),
        }
    }

    /// Why nothing more can be read or written.
    fn lost(&self) -> End {
        match self.connection.is_cut() {
            true => End::Stuck,
            false => End::Gone,
        }
    }

    /// Decodes all that was read. What ends the session waits until the messages before it are answered.
    fn decode(&mut self) -> Result<(), End> {
        self.decoder.feed(&self.buffer);
        self.buffer.clear();
        while self.end.is_none() {
            match self.decoder.next() {
                Ok(None) => break,
                Ok(Some(Incoming::Text(text))) => self.wait(text.into_bytes()),
                Ok(Some(Incoming::Ping(data))) => encode(Outgoing::Pong(&data), &mut self.out),
                Ok(Some(Incoming::Pong(_))) => {}
                Ok(Some(Incoming::Close { code, .. })) => self.end = Some(End::ByClient(code)),
                Err(ended) => self.end = Some(End::of(ended)),
            }
        }
        Ok(())
    }

    fn wait(&mut self, data: Vec<u8>) {
        let bytes = data.len() + size_of::<Waiting>();
        self.ahead += bytes;
        self.waiting.push_back(Waiting { lines: Lines::new(data), bytes, since: Instant::now() });
    }

    // ---- what goes

    /// Answers all messages that wait, in turns.
    async fn answer_all(&mut self) -> Result<(), End> {
        while !self.waiting.is_empty() {
            let turn = self.turn().await?;
            if self.out.len() >= WRITE || matches!(turn, Turn::Done | Turn::Crowded) {
                self.write().await?;
            }
            if turn != Turn::Done {
                self.check_end()?;
                self.look().await?;
            }
            match turn {
                Turn::Until(ticket) => self.until(ticket).await?,
                Turn::Crowded => self.room().await?,
                Turn::Done => self.crowded = None,
                Turn::Long => {}
                Turn::More => {
                    self.crowded = None;
                    tokio::task::yield_now().await;
                }
            }
        }
        self.write().await
    }

    /// Waits for others' readers, but not for ever.
    async fn room(&mut self) -> Result<(), End> {
        let since = *self.crowded.get_or_insert_with(tokio::time::Instant::now);
        if since.elapsed() > self.seated.server.options.patience {
            return Err(End::CROWDED);
        }
        tokio::select! {
            () = self.unread.room() => Ok(()),
            () = self.connection.cut_off() => Err(End::Stuck),
            () = sleep(LOOK) => Ok(()),
        }
    }

    /// Whether someone ends the session, whose client may send on and on.
    fn check_end(&self) -> Result<(), End> {
        if let Some(by) = self.seated.session.ended_by() {
            return Err(End::by(by));
        }
        match *self.seated.server.is_ending.borrow() {
            true => Err(End::SHUTDOWN),
            false => Ok(()),
        }
    }

    /// Answers messages until the turn is over, or there is enough to write.
    async fn turn(&mut self) -> Result<Turn, End> {
        let Socket { seated, connection, waiting, ahead, out, unread, rests, length, .. } = self;
        let Seated { server, session } = seated;
        let (may_be, client) = (*length, session.client.clone());
        let work = |core: &mut Core, until| {
            core.seats.hears(session.seat);
            while let Some(first) = waiting.front_mut() {
                (first.lines.has_room, first.lines.length) = (unread.has_room(), may_be);
                let turn = first.lines.turn(core, session, until);
                unread.set(out.len() + first.lines.answers.len());
                if turn? != Turn::Done {
                    return turn;
                }
                *rests = (*rests).max(first.lines.rests);
                out.try_reserve(HEAD + first.lines.answers.len()).map_err(|_| Lost)?;
                encode(Outgoing::Text(&first.lines.answers), out);
                server.metrics.calls.note(first.since.elapsed());
                *ahead -= first.bytes;
                waiting.pop_front();
                if out.len() >= WRITE || Instant::now() >= until {
                    return Ok(Turn::More);
                }
            }
            Ok(Turn::Done)
        };
        let (turn, _) = tokio::select! {
            biased; // without the lane it is done at once
            turned = server.door.turn_of(may_be, &client, work) => turned,
            () = connection.cut_off() => return Err(End::Stuck),
        };
        *length = turn.map_or(Length::Short, Turn::next);
        turn.map_err(|Lost| End::UNWRITTEN)
    }

    async fn write(&mut self) -> Result<(), End> {
        if self.out.is_empty() {
            return Ok(());
        }
        self.until(self.rests).await?;
        let written = tokio::select! {
            biased; // mostly it is written at once
            written = self.stream.write_all(&self.out) => written,
            () = self.connection.cut_off() => return Err(End::Stuck),
            _ = soon_after(self.seated.session.told_to_end()) => return Err(End::Stuck),
        };
        self.out.clear();
        // A long answer isn't kept room for.
        self.out.shrink_to(WRITE);
        self.unread.set(self.waiting.front().map_or(0, |first| first.lines.answers.len()));
        written.map_err(|_| self.lost())
    }
}

impl Socket {
    /// Waits until it is durable, or the session has to end without it.
    async fn until(&mut self, ticket: Ticket) -> Result<(), End> {
        tokio::select! {
            biased;
            () = self.seated.server.door.until(ticket) => Ok(()),
            () = self.connection.cut_off() => Err(End::Stuck),
            by = soon_after(self.seated.session.told_to_end()) => Err(End::by(by)),
        }
    }
}

async fn soon_after<T>(told: impl Future<Output = T>) -> T {
    let told = told.await;
    sleep(LINGER).await;
    told
}

#[cfg(test)]
mod tests;
