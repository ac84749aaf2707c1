//! Transactions of several clients at once: how many a second, and how long each message waits for its answer.

use crate::failure::Failure;
use crate::figures::Figures;
use crate::peer::{Client, Peer};
use std::sync::Barrier;
use std::thread;
use std::time::Instant;

pub fn run(peer: &dyn Peer, clients: usize, each: usize, rows: usize, ahead: usize) -> Result<String, Failure> {
    let gate = Barrier::new(clients + 1);
    let (took, found) = thread::scope(|scope| {
        let work = |client| {
            let gate = &gate;
            move || {
                let ready = prepare(peer, client, each, rows);
                gate.wait();
                let found = ready.and_then(|(mut talk, messages)| ask(&mut *talk, &messages, rows, ahead));
                gate.wait();
                found
            }
        };
        let threads: Vec<_> = (0..clients).map(|client| scope.spawn(work(client))).collect();
        gate.wait();
        let began = Instant::now();
        gate.wait();
        let took = began.elapsed().as_secs_f64();
        let found = threads.into_iter().map(|one| one.join().unwrap_or(Err(Failure::Thread)));
        (took, found.collect::<Result<Vec<_>, _>>())
    });
    let figures = Figures::new().with("rows", (clients * each) as f64).with("rate", (clients * each) as f64 / took);
    Ok(figures.latencies(found?.concat()).told())
}

type Prepared = (Box<dyn Client>, Vec<Vec<u8>>);

fn prepare(peer: &dyn Peer, client: usize, each: usize, rows: usize) -> Result<Prepared, Failure> {
    Ok((peer.client()?, peer.messages(client, each, rows)))
}

/// Sends all messages, so many of them ahead, and returns how long each waited where none is sent ahead.
fn ask(talk: &mut dyn Client, messages: &[Vec<u8>], rows: usize, ahead: usize) -> Result<Vec<f64>, Failure> {
    let mut waited = Vec::new();
    if ahead == 1 {
        for message in messages {
            let began = Instant::now();
            talk.send(message)?;
            talk.receive(rows)?;
            waited.push(began.elapsed().as_secs_f64());
        }
        return Ok(waited);
    }
    let (mut sent, mut done) = (0, 0);
    while done < messages.len() {
        let until = messages.len().min(done + ahead);
        if until > sent {
            talk.send(&messages[sent..until].concat())?;
            sent = until;
        }
        talk.receive(rows)?;
        done += 1;
        // What has come already is taken before more is sent, so that one write carries several messages.
        while done < sent && talk.has_more() && sent - done > ahead / 2 {
            talk.receive(rows)?;
            done += 1;
        }
    }
    Ok(waited)
}
