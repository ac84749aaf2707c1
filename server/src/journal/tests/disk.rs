//! A disk of a test's own, which fails and tears where the test says so.

use super::*;
use crate::journal::store::{Draft, Store};
use crate::testing::Dice;
use parking_lot::Mutex;
use std::collections::BTreeMap;
use std::io::Read;

const SECTOR: usize = 512;

/// What a crash leaves of bytes that were being appended.
#[derive(Clone, Copy, Debug, PartialEq, Eq)]
pub enum Left {
    /// A beginning.
    Beginning(usize),
    /// All but a sector from this byte on, which is zeros.
    Holes(usize),
    All,
}

impl Left {
    pub fn drawn(dice: &mut Dice) -> Left {
        match dice.below(4) {
            0 => Left::All,
            1 => Left::Holes(dice.below(4096) as usize),
            _ => Left::Beginning(dice.below(4096) as usize),
        }
    }
}

#[derive(Default)]
struct State {
    series: BTreeMap<Series, Vec<u8>>,
    /// After so many appends one fails, and leaves this.
    failing: Option<(usize, Left)>,
}

/// Each handle is of the same disk.
#[derive(Clone, Default)]
pub struct Disk(Arc<Mutex<State>>);

impl Disk {
    /// A disk with these bytes.
    pub fn of(series: BTreeMap<Series, Vec<u8>>) -> Disk {
        Disk(Arc::new(Mutex::new(State { series, failing: None })))
    }

    pub fn all(&self) -> BTreeMap<Series, Vec<u8>> {
        self.0.lock().series.clone()
    }

    pub fn fail(&self, after: usize, left: Left) {
        self.0.lock().failing = Some((after, left));
    }

    pub fn mend(&self) {
        self.0.lock().failing = None;
    }
}

/// What is left of bytes behind `length` others.
fn left_of(bytes: &[u8], length: usize, left: Left) -> Vec<u8> {
    let mut found = bytes.to_vec();
    match left {
        Left::All => {}
        Left::Beginning(count) => found.truncate(count % (bytes.len() + 1)),
        Left::Holes(at) => {
            let first = (length + at % bytes.len()) / SECTOR * SECTOR;
            let hole = first.max(length) - length..(first + SECTOR - length).min(bytes.len());
            found[hole].fill(0);
        }
    }
    found
}

fn failed() -> Failure {
    Failure::Postgres("the test's disk fails".into())
}

impl Store for Disk {
    fn all(&mut self) -> Result<Vec<Series>, Failure> {
        Ok(self.0.lock().series.keys().copied().collect())
    }

    fn read(&mut self, series: Series, _behind: u64) -> Result<Box<dyn Read + '_>, Failure> {
        let bytes = self.0.lock().series.get(&series).cloned().unwrap_or_default();
        Ok(Box::new(std::io::Cursor::new(bytes)))
    }

    fn name(&self, series: Series) -> String {
        series.to_string()
    }

    fn cut(&mut self, series: Series, length: u64) -> Result<(), Failure> {
        self.0.lock().series.entry(series).or_default().truncate(length as usize);
        Ok(())
    }

    fn append(&mut self, series: Series, pieces: &[&[u8]]) -> Result<(), Failure> {
        let bytes = pieces.concat();
        let mut state = self.0.lock();
        let left = match &mut state.failing {
            None => None,
            Some((0, left)) => Some(*left),
            Some((after, _)) => {
                *after -= 1;
                None
            }
        };
        let there = state.series.entry(series).or_default();
        match left {
            None => there.extend_from_slice(&bytes),
            Some(left) => there.extend_from_slice(&left_of(&bytes, there.len(), left)),
        }
        left.map_or(Ok(()), |_| Err(failed()))
    }

    fn draft(&mut self, number: u64) -> Result<Box<dyn Draft>, Failure> {
        Ok(Box::new(DiskDraft { disk: self.clone(), number, bytes: Vec::new() }))
    }

    fn drop_below(&mut self, number: u64) -> Result<(), Failure> {
        self.0.lock().series.retain(|series, _| series.number >= number);
        Ok(())
    }

    fn place(&self) -> Option<Place> {
        None
    }
}

struct DiskDraft {
    disk: Disk,
    number: u64,
    bytes: Vec<u8>,
}

impl Draft for DiskDraft {
    fn write(&mut self, bytes: &[u8]) -> Result<(), Failure> {
        self.bytes.extend_from_slice(bytes);
        Ok(())
    }

    fn finish(mut self: Box<Self>) -> Result<(), Failure> {
        self.disk.0.lock().series.insert(Series::checkpoint(self.number), std::mem::take(&mut self.bytes));
        self.disk.drop_below(self.number)
    }
}
