//! `GET /dump`: the database as a script, while calls go on. It is a backup, which `--restore` takes, and
//! `mvfeed run --format 2` runs.
//!
//! It has all that was committed at or below closed, as it stood when it was asked for. Its last line, a `collect`, says
//! that it is whole. A protection holds the horizon meanwhile, so one that is read too slowly is cut as streams are. What
//! waits for its reader counts as a report does.

use crate::core::Core;
use crate::door::Length;
use crate::http::{Request, Response, Sender};
use crate::journal::copy::{Broken, Copy, Next};
use crate::journal::DUMP;
use crate::query::arguments;
use crate::refusal::Refusal;
use crate::routes::Server;
use crate::shares::Held;
use crate::streams::Place;
use std::sync::Arc;

/// Bytes that a dump takes at most: those of a batch that gathers, and of two that wait for its reader.
const BYTES: usize = 3 << 20;

pub async fn dump(server: &Arc<Server>, request: Request) -> Result<Response, Refusal> {
    arguments(&request.path, &request.query, &[])?;
    if !request.who.keys().is_all() {
        return Err(Refusal::other_keys());
    }
    let mut held = server.reports.begin(&request.client);
    held.grow(BYTES)?;
    let place = Place::take(server, &request.client)?;
    let begin = |core: &mut Core| (Copy::begin(core, DUMP, core.ledger.closed), core.ledger.closed);
    let (copy, closed) = server.door.run(begin);
    let copy = copy.map_err(|Broken| Refusal::no_memory())?;
    let (response, sender) = Response::stream("text/plain; charset=us-ascii");
    server.spawn(run(place, copy, sender, held));
    Ok(response.with("cache-control", "no-store").with("ripsawbean-closed", closed.to_string()))
}

async fn run(place: Place, mut copy: Copy, sender: Sender, _held: Held) {
    let is_told = tell(&place, &mut copy, &sender).await.is_some();
    place.server().door.run(|core| copy.end(core));
    if !is_told {
        sender.cut();
    }
}

/// `None` where it can't be told to its end.
async fn tell(place: &Place, copy: &mut Copy, sender: &Sender) -> Option<()> {
    let (door, is_ending) = (&place.server().door, place.server().is_ending.subscribe());
    while !*is_ending.borrow() {
        sender.room().await.ok()?;
        let (next, _) = door.turn_of(Length::Short, place.client(), |core, until| copy.turn(core, until)).await;
        let next = next.ok()?;
        if matches!(next, Next::Take | Next::Done) {
            door.until(door.all()).await;
            let piece = copy.take();
            place.server().streams.tell(0, piece.len());
            sender.send(piece.into()).await.ok()?;
        }
        if next == Next::Done {
            return Some(());
        }
        tokio::task::yield_now().await;
    }
    None
}
