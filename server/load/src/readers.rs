//! Rows that are told to readers: how long after they were sent, and how many a second.

use crate::failure::Failure;
use crate::figures::Figures;
use crate::peer::{Peer, Reader};
use std::sync::Barrier;
use std::thread;
use std::time::{Duration, Instant};

/// Rows in a message of a flood.
const ROWS_A_MESSAGE: usize = 25;
/// Rows in a message that fills the database.
const ROWS_A_FILLING: usize = 100;

/// One row each `pause` microseconds.
pub fn push(peer: &dyn Peer, readers: usize, count: usize, pause: u64) -> Result<String, Failure> {
    let told = with_readers(peer, readers, count, |began, sent| {
        let mut client = peer.client()?;
        for at in 0..count {
            sent.push(began.elapsed().as_secs_f64());
            client.send(&peer.told(at..at + 1))?;
            client.receive(1)?;
            thread::sleep(Duration::from_micros(pause));
        }
        Ok(())
    })?;
    Ok(Figures::new().with("rows", count as f64).latencies(told.waited()).told())
}

/// Rows as fast as they are taken.
pub fn flood(peer: &dyn Peer, readers: usize, count: usize) -> Result<String, Failure> {
    let told = with_readers(peer, readers, count, |began, sent| {
        let mut client = peer.client()?;
        for at in (0..count).step_by(ROWS_A_MESSAGE) {
            let until = count.min(at + ROWS_A_MESSAGE);
            sent.resize(until, began.elapsed().as_secs_f64());
            client.send(&peer.told(at..until))?;
            client.receive(until - at)?;
        }
        Ok(())
    })?;
    let first = told.sent.first().copied().unwrap_or_default();
    let last = told.rows.iter().flatten().map(|(_, at)| *at).fold(first, f64::max);
    let figures = Figures::new().with("rows", count as f64).with("rate", count as f64 / (last - first));
    Ok(figures.latencies(told.waited()).told())
}

/// Writes so many rows, or writes them anew.
pub fn fill(peer: &dyn Peer, count: usize) -> Result<(), Failure> {
    let mut client = peer.client()?;
    for at in (0..count).step_by(ROWS_A_FILLING) {
        let until = count.min(at + ROWS_A_FILLING);
        client.send(&peer.filled(at..until))?;
        client.receive(peer.answers_to_filling(until - at))?;
    }
    Ok(())
}

/// A reader that begins with nothing.
pub fn first(peer: &dyn Peer, count: usize) -> Result<String, Failure> {
    fill(peer, count)?;
    let began = Instant::now();
    let told = peer.read_first()?;
    if told < count {
        return Err(Failure::Missing { told, wanted: count });
    }
    Ok(Figures::new().with("rows", told as f64).with("rate", told as f64 / began.elapsed().as_secs_f64()).told())
}

/// What was sent when, and for each reader which row came when.
struct Told {
    sent: Vec<f64>,
    rows: Vec<Vec<(usize, f64)>>,
}

impl Told {
    fn waited(&self) -> Vec<f64> {
        self.rows.iter().flatten().filter_map(|(row, at)| Some(at - self.sent.get(*row)?)).collect()
    }
}

/// Opens the readers, writes once all are ready, and waits until each has all rows.
fn with_readers(
    peer: &dyn Peer,
    readers: usize,
    count: usize,
    write: impl FnOnce(Instant, &mut Vec<f64>) -> Result<(), Failure>,
) -> Result<Told, Failure> {
    peer.ready()?;
    let (began, gate) = (Instant::now(), Barrier::new(readers + 1));
    thread::scope(|scope| {
        let work = || {
            let reader = peer.reader();
            gate.wait();
            all_of(&mut *reader?, count, began)
        };
        let threads: Vec<_> = (0..readers).map(|_| scope.spawn(work)).collect();
        gate.wait();
        let mut sent = Vec::with_capacity(count);
        write(began, &mut sent)?;
        let rows = threads.into_iter().map(|one| one.join().unwrap_or(Err(Failure::Thread)));
        Ok(Told { sent, rows: rows.collect::<Result<_, _>>()? })
    })
}

fn all_of(reader: &mut dyn Reader, count: usize, began: Instant) -> Result<Vec<(usize, f64)>, Failure> {
    let (mut found, mut numbers) = (Vec::with_capacity(count), Vec::new());
    while found.len() < count {
        numbers.clear();
        reader.read(&mut numbers)?;
        let now = began.elapsed().as_secs_f64();
        found.extend(numbers.iter().map(|row| (*row, now)));
    }
    Ok(found)
}
