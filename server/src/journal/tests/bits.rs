//! A journal and its checkpoint cut at each byte, and with each bit flipped: a right beginning, or a refusal that names
//! the series and the byte, after which nothing has changed.

use super::disk::Disk;
use super::*;
use std::collections::{BTreeMap, VecDeque};

type Bytes = BTreeMap<Series, Vec<u8>>;

/// What a disk with these bytes has: the rows, or why it is refused.
fn told(bytes: &Bytes) -> Result<Vec<String>, String> {
    let disk = Disk::of(bytes.clone());
    let recovered = recovered(&disk, IDENTITY);
    let recovered = match recovered {
        Ok(recovered) => recovered,
        Err(error) => {
            assert_eq!(disk.all(), *bytes, "{error}");
            return Err(error.to_string());
        }
    };
    let log = Arc::new(Log::to(Level::Error, false, Box::new(std::io::sink())));
    let mut core = Core::recovered(recovered, &options(&NO_HISTORY), log);
    let (mut one, closed) = (session(&mut core), core.ledger.closed);
    Ok(answers(&mut core, &mut one, &format!("scanat {closed} - -\n"))[1..].to_vec())
}

/// A checkpoint, and a journal behind it of several batches with names and answers.
fn whole() -> Bytes {
    crate::journal::writer::by_hand::hold();
    let disk = Disk::default();
    let recovered = recovered(&disk, IDENTITY).map_err(|error| error.to_string());
    let log = Arc::new(Log::to(Level::Error, false, Box::new(std::io::sink())));
    let mut core = Core::recovered(recovered.expect("it is new"), &options(&NO_HISTORY), log);
    let written = |core: &mut Core, lines: &str| {
        let mut one = session(core);
        let mut lines = crate::lines::Lines::new(lines.as_bytes().to_vec());
        let far = Instant::now() + Duration::from_secs(9);
        while lines.turn(core, &mut one, far) != Ok(crate::door::Turn::Done) {
            write_all();
        }
        core.settle(Instant::now());
        write_all();
    };
    written(&mut core, "begin\nput . a 1\nput . b 2\ncommit .\n");
    written(&mut core, "begin\nput . a 3\ncommit .\n");
    let none = Remembered::new(Duration::ZERO, VecDeque::new());
    let mut making = Making::begin(&mut core, &none).expect("no other is on its way");
    write_all();
    making.take_draft().expect("it is begun");
    while making.turn(&mut core, Instant::now()).expect("it is held") != Next::Done {}
    making.write(Next::Done).expect("it is written");
    making.finish().expect("it is finished");
    making.end(&mut core);
    follow(&mut core, "x");
    write_all();
    for number in 0..3 {
        written(&mut core, &format!("begin\nput . n {number}\nput . m {number}\ncommit .\n"));
    }
    disk.all()
}

fn write_all() {
    use crate::journal::writer::by_hand;
    while by_hand::take() {
        by_hand::finish().expect("the disk is well");
    }
}

fn journal_and_checkpoint(bytes: &Bytes) -> [Series; 2] {
    let all: Vec<Series> = bytes.keys().copied().collect();
    assert_eq!(all, [Series::checkpoint(2), Series::journal(2)]);
    [all[1], all[0]]
}

#[test]
fn cut_at_each_byte() {
    let bytes = whole();
    let [journal, checkpoint] = journal_and_checkpoint(&bytes);
    let mut counts = std::collections::BTreeSet::new();
    for cut in 0..=bytes[&journal].len() {
        let mut copy = bytes.clone();
        copy.entry(journal).or_default().truncate(cut);
        match told(&copy) {
            // Half a transaction is never there.
            Ok(rows) => {
                let value = |key: &str| rows.iter().find_map(|row| row.strip_prefix(key).map(str::to_string));
                assert_eq!(value("row n "), value("row m "), "cut at {cut}: {rows:?}");
                assert_eq!(value("row a "), Some("3".into()), "cut at {cut}: {rows:?}");
                counts.insert(value("row n "));
            }
            // A checkpoint needs the head of its journal, which was durable before it.
            Err(why) => {
                assert!(why.contains("journal-000002 isn't whole: what has to stand at byte 0"), "{cut}: {why}")
            }
        }
    }
    assert_eq!(counts.len(), 4);
    for cut in 0..bytes[&checkpoint].len() {
        let mut copy = bytes.clone();
        copy.entry(checkpoint).or_default().truncate(cut);
        let why = told(&copy).expect_err("it is refused");
        assert!(why.contains("checkpoint-000002 isn't whole: what has to stand at byte "), "cut at {cut}: {why}");
    }
    // One that isn't the last is never torn.
    let mut copy = bytes.clone();
    let begin = copy[&journal][..200].to_vec();
    copy.insert(Series::journal(3), begin);
    copy.entry(journal).or_default().pop();
    let why = told(&copy).expect_err("it is refused");
    assert!(why.contains("journal-000002 has a torn batch at byte "), "{why}");
}

#[test]
fn with_each_bit_flipped() {
    let bytes = whole();
    for series in journal_and_checkpoint(&bytes) {
        let mut copy = bytes.clone();
        for at in 0..bytes[&series].len() {
            for bit in 0..8 {
                copy.entry(series).or_default()[at] ^= 1 << bit;
                let why = told(&copy).expect_err("it is refused");
                let (name, rest) = why.split_once(" is damaged at byte ").expect(&why);
                let place: usize = rest.split(' ').next().and_then(|word| word.parse().ok()).expect(&why);
                assert!(name == series.to_string() && place <= at, "byte {at}, bit {bit}: {why}");
                copy.entry(series).or_default()[at] ^= 1 << bit;
            }
        }
    }
}
