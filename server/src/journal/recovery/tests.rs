//! A journal that is read while it is written: in steps, of which each may be cut by a connection that is lost.

use super::super::store::{Draft, Series};
use super::*;
use crate::testing::{Dice, IDENTITY};

const LAST: u64 = 24;
/// Longer than what is read at once, so that a read may be cut behind some batches.
const LONG: usize = 60_000;

/// Batches, a transaction each, of which the first ones are there. A read may be lost behind some of their bytes.
struct Growing {
    batches: Vec<(Series, Vec<u8>)>,
    there: usize,
    lost_behind: Option<usize>,
}

struct Cut {
    bytes: Vec<u8>,
    at: usize,
    is_lost: bool,
}

impl io::Read for Cut {
    fn read(&mut self, out: &mut [u8]) -> io::Result<usize> {
        let count = self.bytes[self.at..].as_ref().read(out)?;
        self.at += count;
        match count {
            0 if self.is_lost => Err(io::Error::other(Failure::Postgres("it is lost".into()))),
            count => Ok(count),
        }
    }
}

impl Store for Growing {
    fn all(&mut self) -> Result<Vec<Series>, Failure> {
        Ok(self.batches[..self.there].iter().map(|(series, _)| *series).collect())
    }

    fn read(&mut self, series: Series, behind: u64) -> Result<Box<dyn io::Read + '_>, Failure> {
        let of_series = self.batches[..self.there].iter().filter(|(one, _)| *one == series);
        let mut bytes: Vec<u8> = of_series.skip(behind as usize).flat_map(|(_, bytes)| bytes.clone()).collect();
        let is_lost = self.lost_behind.is_some();
        bytes.truncate(self.lost_behind.unwrap_or(usize::MAX));
        Ok(Box::new(Cut { bytes, at: 0, is_lost }))
    }

    fn name(&self, series: Series) -> String {
        series.to_string()
    }

    fn cut(&mut self, _: Series, _: u64) -> Result<(), Failure> {
        unreachable!()
    }

    fn append(&mut self, _: Series, _: &[&[u8]]) -> Result<(), Failure> {
        unreachable!()
    }

    fn draft(&mut self, _: u64) -> Result<Box<dyn Draft>, Failure> {
        unreachable!()
    }

    fn drop_below(&mut self, _: u64) -> Result<(), Failure> {
        unreachable!()
    }

    fn place(&self) -> Option<Place> {
        None
    }
}

/// Three series. At the end of each a batch is cut between it and the next one.
fn written(value: &str) -> Growing {
    let (mut series, mut batches) = (Series::journal(1), Vec::new());
    let mut chain = Chain::new(IDENTITY, series);
    let head = Note::Database(IDENTITY.into()).to_string();
    let mut add = |chain: &mut Chain, series, number, lines: &str| {
        let mut bytes = Vec::new();
        chain.add(number, 1000 + number, lines.as_bytes(), &mut bytes);
        batches.push((series, bytes));
    };
    for number in 1..=LAST {
        let lines = format!("0 begin {number}\n0 put {number} k{number} {value}\n0 commit {number}\n");
        match number {
            1 => add(&mut chain, series, number, &format!("{head}{lines}")),
            _ => add(&mut chain, series, number, &lines),
        }
        if number % 8 == 0 && number < LAST {
            series.number += 1;
            chain = Chain::new(IDENTITY, series);
            add(&mut chain, series, number, &head);
        }
    }
    Growing { batches, there: 0, lost_behind: None }
}

fn all_of(reading: &Reading, store: &mut Growing) -> Found {
    let last = store.all().expect("they are there").last().map(|series| series.number);
    if reading.is_begun() {
        Found::up_to(last)
    } else {
        found(store).expect("it is whole")
    }
}

fn reading() -> Reading {
    Reading::begin(Duration::MAX).expect("there is memory")
}

#[test]
fn what_is_read_in_steps_is_what_is_there() {
    let mut dice = Dice::new(95);
    for _ in 0..8 {
        let (mut store, mut reading) = (written(&"v".repeat(LONG)), reading());
        while reading.reached() != Some((3, 9)) {
            store.there = (store.there + dice.below(4) as usize).min(store.batches.len());
            store.lost_behind = dice.one_in(2).then(|| dice.below(5 * LONG as u64) as usize);
            let (is_begun, all) = (reading.is_begun(), all_of(&reading, &mut store));
            match reading.take_all(&mut store, &all) {
                Ok(()) => {}
                Err(Failure::Postgres(_)) if is_begun => {}
                Err(Failure::Postgres(_)) => reading = reading.anew().expect("there is memory"),
                // A beginning of a batch, where the connection is lost in the middle of one.
                Err(failure) => panic!("{failure}"),
            }
        }
        let commits: Vec<u64> = reading.told.commits.iter().map(|(ts, _)| *ts).collect();
        assert_eq!((commits, reading.told.mark), ((1..=LAST).collect(), 1000 + LAST));
    }
}

#[test]
fn what_stands_there_no_longer_is_noticed() {
    let whole = |there, value: &str| Growing { there, ..written(value) };
    let count = written("v").batches.len();
    // The last batch is gone, another one stands there, or all is gone.
    for (mut other, why) in [
        (whole(count - 1, "v"), "gone"),
        (whole(count, "w"), "another"),
        (whole(0, "v"), "all"),
        (whole(5, "v"), "series"),
    ] {
        let (mut store, mut reading) = (whole(count, "v"), reading());
        let all = all_of(&reading, &mut store);
        reading.take_all(&mut store, &all).expect("it is right");
        let all = all_of(&reading, &mut store);
        reading.take_all(&mut store, &all).expect("it stands there still");
        let all = all_of(&reading, &mut other);
        let taken = reading.take_all(&mut other, &all);
        assert!(matches!(taken, Err(Failure::Missing(_) | Failure::Damaged { .. })), "{why}: {taken:?}");
    }
}

#[test]
fn a_series_that_lacks_batches_before_it_is_refused() {
    let (mut store, mut reading) = (written("v"), reading());
    store.there = 4;
    let all = all_of(&reading, &mut store);
    reading.take_all(&mut store, &all).expect("it is right");
    // The rest of the first series was never read.
    store.batches.drain(4..8);
    store.there = store.batches.len();
    let all = all_of(&reading, &mut store);
    let taken = reading.take_all(&mut store, &all);
    assert!(matches!(taken, Err(Failure::NotWhole { .. })), "{taken:?}");
}
