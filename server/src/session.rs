//! Sessions: `GET /session`, a WebSocket, and `POST /call`, which is a session of one request.
//!
//! `socket` carries the messages of a WebSocket; here is what both have in common.
//!
//! 1. A session has a seat as long as its `Seated` lives. However that ends, what the session left in the database ends
//!    with it, and then the seat is free.
//! 2. Lines are taken in turns, and between two of them everyone else is let in.
//! 3. No more answers wait for their readers than there are seats, and all unread answers together have a bound
//!    of bytes: `UNREAD`, and one message's answers more. A line whose answer may be long waits for the others' readers.
//! 4. Where an answer's text was lost for want of memory, the session ends: nobody is told that a call wasn't made.
//! 5. A line whose call is long waits for the lane, and with it the lines behind it.

use crate::connections::Connection;
use crate::core::Core;
use crate::door::{Length, Permit, Turn};
use crate::gate::Who;
use crate::http::{Request, Response};
use crate::journal::Ticket;
use crate::lines::{Lines, Lost, Told};
use crate::query::{arguments, flag_in, number_of, Arguments};
use crate::refusal::Refusal;
use crate::routes::Server;
use crate::seats::{EndedBy, Session};
use crate::shares::{Client, Held};
use crate::socket::Socket;
use crate::ws::{self, Asked};
use std::sync::Arc;
use std::time::{Duration, Instant};

/// Bytes that all answers may have which their clients haven't read, beside those of the message that is answered.
pub const UNREAD: usize = 64 << 20;
/// Bytes of an answer that its connection has room for.
const SHORT: usize = 1 << 16;
/// How long a body may take.
const BODY: Duration = Duration::from_secs(10);
/// A request that waits for others' readers looks so often whether it is to end.
const LOOK: Duration = Duration::from_millis(250);
/// How long a connection may take to become a WebSocket.
const UPGRADE: Duration = Duration::from_secs(10);

/// A session with its seat.
pub struct Seated {
    pub server: Arc<Server>,
    pub session: Session,
}

impl Seated {
    fn take(server: &Arc<Server>, who: Who, connection: &Connection) -> Result<Seated, Refusal> {
        let session = server.door.run(|core| core.seats.take(connection.peer, who))?;
        Ok(Seated { server: server.clone(), session })
    }

    fn aborts_after(&self, idle: Option<Duration>) {
        self.server.door.run(|core| {
            if let Some(taken) = core.seats.taken_mut(self.session.seat) {
                taken.idle = idle;
            }
        });
    }
}

impl Drop for Seated {
    fn drop(&mut self) {
        let seat = self.session.seat;
        if self.server.door.turn(|core, until| core.end(seat, until, Length::Short)) != Turn::Done {
            let (server, permit) = (self.server.clone(), Permit::of(&self.session.client));
            tokio::spawn(async move {
                let end = |core: &mut Core, until| (core.end(seat, until, Length::Long) == Turn::Done).then_some(());
                server.door.turns_in_lane(permit, end).await;
            });
        }
    }
}

/// A browser's WebSocket can't send headers, so the query may name the database too.
fn check_identity(server: &Server, arguments: &Arguments) -> Result<(), Refusal> {
    match arguments.bytes("identity") {
        Some(named) if named != server.identity.as_bytes() => Err(Refusal::other_identity(&server.identity)),
        _ => Ok(()),
    }
}

/// `POST /call`: lines in, events out.
pub async fn call(server: &Arc<Server>, mut request: Request) -> Result<Response, Refusal> {
    // It is read before anything is refused, so that its connection can go on.
    let mut data = request.body(server.options.max_message, BODY).await?;
    let arguments = arguments(&request.path, &request.query, &["strict", "identity"])?;
    check_identity(server, &arguments)?;
    let is_strict = flag_in(&arguments, "strict")?;
    if data.last() != Some(&b'\n') {
        data.push(b'\n');
    }
    let start = Instant::now();
    // A body that comes slowly holds no seat. An answer that is taken slowly counts as one: it may be long.
    let mut place = place_of_answer(server, &request.client)?;
    let mut seated = Seated::take(server, request.who.clone(), &request.connection)?;
    let mut lines = Lines::new(data);
    let told = answer(&mut seated, &mut lines, &mut place.unread).await;
    // Seats are free while the answer waits for the disk, and so is the place of a short one.
    drop(seated);
    let place = Some(place).filter(|_| lines.answers.len() > SHORT);
    if !server.door.until_within(lines.rests, server.options.patience).await {
        return Err(Refusal::no_lease());
    }
    server.metrics.calls.note(start.elapsed());
    told?;
    let mut response = Response::whole("text/plain; charset=utf-8", lines.answers).resting_on(lines.rests);
    if let Some(place) = place {
        response = response.keeping(place);
    }
    if is_strict {
        response.status = status_of(lines.told);
    }
    Ok(response)
}

/// The status that says whether all went well.
fn status_of(told: Told) -> u16 {
    match told {
        Told { has_fault: true, .. } => 422,
        Told { has_refusal: true, .. } => 409,
        _ => 200,
    }
}

/// The place of an answer until its client has taken it, and what it counts.
pub struct Place {
    _held: Held,
    pub unread: Held,
}

/// As many answers are there at once as there are seats.
pub fn place_of_answer(server: &Server, client: &Client) -> Result<Place, Refusal> {
    Ok(Place { _held: server.answers.take(client)?, unread: server.unread.begin(client) })
}

async fn answer(seated: &mut Seated, lines: &mut Lines, unread: &mut Held) -> Result<(), Refusal> {
    let Seated { server, session } = seated;
    let client = session.client.clone();
    let refused = |error, why| Err(Refusal::new(500, error, why));
    let (mut length, mut crowded) = (Length::Short, None);
    loop {
        let turned = server.door.turn_of(length, &client, |core, until| {
            core.seats.hears(session.seat);
            (lines.has_room, lines.length) = (unread.has_room(), length);
            let turn = lines.turn(core, session, until);
            unread.set(lines.answers.len());
            turn
        });
        let (turn, _) = turned.await;
        length = turn.map_or(Length::Short, Turn::next);
        match turn {
            Ok(Turn::Done) => return Ok(()),
            Ok(Turn::More | Turn::Crowded | Turn::Long) if session.ended_by().is_some() => {
                return refused("ended", "an operator has ended the session: lines were taken, and others weren't")
            }
            Ok(Turn::Long) => {}
            Ok(Turn::More) => {
                crowded = None;
                tokio::task::yield_now().await;
            }
            Ok(Turn::Until(ticket)) => server.door.until(ticket).await,
            Ok(Turn::Crowded)
                if crowded.get_or_insert_with(tokio::time::Instant::now).elapsed() > server.options.patience =>
            {
                return match lines.is_begun() {
                    false => Err(Refusal::crowded()),
                    true => refused("answers", "lines were taken, and others weren't: others don't read their answers"),
                }
            }
            Ok(Turn::Crowded) => drop(tokio::time::timeout(LOOK, unread.room()).await),
            Err(Lost) => return refused("unwritten", "lines were taken, and there is no memory for their answers"),
        }
    }
}

/// `GET /session`: a WebSocket.
pub async fn session(server: &Arc<Server>, mut request: Request) -> Result<Response, Refusal> {
    let arguments = arguments(&request.path, &request.query, &["idle", "identity"])?;
    check_identity(server, &arguments)?;
    let idle = idle_in(&arguments)?;
    let lists = ["upgrade", "connection", "sec-websocket-version", "sec-websocket-key"].map(|name| request.list(name));
    let [upgrade, connection, version, key] = &lists;
    let (has_body, is_of_1_1) = (request.has_body(), request.is_of_1_1());
    let accept = ws::accept(&Asked { upgrade, connection, version, key, has_body, is_of_1_1 })?;
    let connection = request.connection.clone();
    let seated = Seated::take(server, request.who.clone(), &connection)?;
    seated.aborts_after(idle);
    let busy = connection.asks(&request.client)?;
    let upgraded = request.upgraded();
    let opened = [
        ("seat", seated.session.seat.into()),
        ("peer", connection.peer.to_string().into()),
        ("by", request.who.name().into()),
    ];
    server.log.info("session_opened", &opened);
    let task = async move {
        match tokio::time::timeout(UPGRADE, upgraded).await {
            Ok(Some(stream)) => Socket::new(stream, connection, seated).run().await,
            _ => {
                let over = [("seat", seated.session.seat.into()), ("why", "it became no WebSocket".into())];
                seated.server.log.info("session_over", &over);
            }
        }
        drop(busy);
    };
    server.spawn(task);
    Ok(Response::switching(accept).resting_on(Ticket::FREE))
}

/// How long the session may be silent before its undecided transactions are aborted, where it says so.
fn idle_in(arguments: &Arguments) -> Result<Option<Duration>, Refusal> {
    match arguments.number("idle") {
        Some(0) => Err(Refusal::new(400, "number", "idle has to be a second at least")),
        seconds => Ok(seconds.map(Duration::from_secs)),
    }
}

/// `DELETE /session/SEAT`: an operator ends a session.
pub async fn end(server: &Arc<Server>, request: Request) -> Result<Response, Refusal> {
    arguments(&request.path, &request.query, &[])?;
    let word = request.path.rsplit('/').next().unwrap_or_default();
    let seat = number_of(word.as_bytes()).and_then(|seat| u8::try_from(seat).ok()).ok_or_else(no_session)?;
    let peer = server.door.run(|core| {
        let taken = core.seats.taken(seat).ok_or_else(no_session)?;
        taken.tell_to_end(EndedBy::Operator);
        Ok(taken.peer.to_string())
    })?;
    let by: &Who = &request.who;
    server
        .log
        .audit("session_ended", &[("seat", seat.into()), ("peer", peer.as_str().into()), ("by", by.name().into())]);
    Ok(Response::whole("application/json; charset=utf-8", format!("{{\"seat\":{seat},\"peer\":\"{peer}\"}}\n")))
}

fn no_session() -> Refusal {
    Refusal::new(404, "session", "no session has this seat")
}

#[cfg(test)]
mod tests {
    use super::*;
    use crate::gate::Right;
    use crate::testing::server;

    fn connection(server: &Server, last: u8) -> Arc<Connection> {
        server.connections.come(([192, 0, 2, last], 1).into()).expect("a place")
    }

    #[test]
    fn answers_that_one_client_leaves_unread_leave_places_to_others() {
        let server = server(&[]);
        let place =
            |name| place_of_answer(&server, &Client::new([192, 0, 2, 1].into(), &Who::of(name, &[Right::Read])));
        let mut places: Vec<_> = std::iter::from_fn(|| place("reader").ok()).collect();
        assert_eq!((places.len(), place("reader").err().map(|refusal| refusal.error)), (48, Some("answers")));
        places.extend((0..15).map(|_| place("other").expect("the last quarter is for others")));
        assert!(place("other").is_err() && place_of_answer(&server, &crate::testing::LOOPBACK).is_ok());
    }

    /// What a call of lines is refused with, and bytes of their answers.
    async fn told(server: &Arc<Server>, text: &str) -> (Option<(u16, &'static str)>, usize) {
        let (connection, who) = (connection(server, 1), Who::anyone());
        let mut place = place_of_answer(server, &Client::new(connection.peer.ip(), &who)).expect("a place");
        let mut seated = Seated::take(server, who, &connection).expect("a seat");
        let mut lines = Lines::new(text.as_bytes().to_vec());
        let told = answer(&mut seated, &mut lines, &mut place.unread).await;
        (told.err().map(|refusal| (refusal.status, refusal.error)), lines.answers.len())
    }

    #[tokio::test(start_paused = true)]
    async fn a_long_scan_waits_for_the_lane_and_a_short_one_does_not() {
        let server = server(&[]);
        for from in [0, 5000, 10_000] {
            let puts: String = (from..from + 5000).map(|at| format!("put . k{at:05} v\n")).collect();
            assert_eq!(told(&server, &format!("begin\n{puts}commit .\n")).await.0, None);
        }
        let asked = |text| tokio::time::timeout(Duration::from_secs(60), told(&server, text));
        let (long, short) = ("begin\nscan . k l\nabort .\n", "begin\nscan . k k01000\nput . a 1\ncommit .\n");
        let lane = server.door.keep_lane().await;
        assert!(asked(long).await.is_err() && asked(short).await.is_ok());
        let given_back = async {
            tokio::task::yield_now().await;
            drop(lane);
        };
        let (told, ()) = tokio::join!(asked(long), given_back);
        let (refused, length) = told.expect("the lane is free");
        assert!(refused.is_none() && length > 15_000 * "row k00000 v\n".len(), "{length} bytes");
    }

    #[tokio::test(start_paused = true)]
    async fn a_long_answer_waits_for_other_readers_and_a_short_one_does_not() {
        let server = server(&["--patience", "5"]);
        let mut unread = server.unread.begin(&Client::new([192, 0, 2, 1].into(), &Who::anyone()));
        unread.set(UNREAD);
        let ask = |text: &'static str| told(&server, text);
        assert_eq!(ask("begin\nput . a 1\nget . a\ncommit .\n").await.0, None);
        assert_eq!(ask("scanat 0 - -\n").await, (Some((503, "answers")), 0));
        let (refused, told) = ask("stats\nscanat 0 - -\n").await;
        assert!(refused == Some((500, "answers")) && told > 0);
        let (waits, reads) = (ask("scanat 0 - -\n"), async {
            tokio::time::sleep(Duration::from_secs(1)).await;
            drop(unread);
        });
        assert_eq!(tokio::join!(waits, reads).0 .0, None);
    }
}
