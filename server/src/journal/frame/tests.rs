//! A journal cut at each byte, with each bit flipped, with sectors lost, and with batches in other places.

use super::*;
use crate::testing::Dice;

const IDENTITY: &str = "1914d5866a08f6aa";
const SERIES: Series = Series { kind: super::super::store::Kind::Journal, number: 1 };

/// Bytes of whole batches, and where each ends.
struct Whole {
    bytes: Vec<u8>,
    ends: Vec<usize>,
    chain: Chain,
}

impl Whole {
    fn new() -> Whole {
        let mut whole = Whole { bytes: Vec::new(), ends: vec![0], chain: Chain::new(IDENTITY, SERIES) };
        whole.add(Note::Database(IDENTITY.into()).to_string().as_bytes());
        whole
    }

    fn add(&mut self, lines: &[u8]) {
        let number = self.ends.len() as u64;
        self.chain.add(number, 1000 + number, lines, &mut self.bytes);
        self.ends.push(self.bytes.len());
    }
}

fn transactions(dice: &mut Dice, first: u64, count: u64) -> Vec<u8> {
    let lines = |ts: u64, dice: &mut Dice| {
        let value = "v".repeat(dice.below(60) as usize + 1);
        format!("0 begin {ts}\n0 put {ts} key{} {value}\n0 commit {ts}\n", ts % 7)
    };
    (first..first + count).map(|ts| lines(ts, dice)).collect::<String>().into_bytes()
}

/// Batches of no, of one and of several transactions.
fn whole(batches: u64) -> Whole {
    let (mut dice, mut whole) = (Dice::new(5), Whole::new());
    for number in 1..batches {
        let count = *dice.of(&[0, 1, 1, 3, 8]);
        let lines = transactions(&mut dice, number * 10, count);
        whole.add(&lines);
    }
    whole
}

/// The numbers of the batches that are told, or what is damaged.
fn told(bytes: &[u8]) -> Result<Vec<u64>, Damage> {
    let (mut batches, mut numbers) = (Batches::new(bytes, SERIES), Vec::new());
    loop {
        match batches.next() {
            Ok(Some(batch)) => {
                assert_eq!(batch.mark, 1000 + batch.number);
                numbers.push(batch.number);
            }
            Ok(None) => {
                assert_eq!(batches.whole() + batches.torn(), bytes.len() as u64);
                return Ok(numbers);
            }
            Err(Fault::Damaged(damage)) => return Err(damage),
            Err(Fault::Read(error)) => panic!("{error}"),
        }
    }
}

#[test]
fn a_whole_journal_is_told_whole() {
    let Whole { bytes, ends, .. } = whole(40);
    let mut batches = Batches::new(bytes.as_slice(), SERIES);
    for (number, range) in (1..).zip(ends.windows(2)) {
        let batch = batches.next().expect("it is whole").expect("a batch");
        assert_eq!(batch.number, number);
        assert!(bytes[range[0]..range[1]].ends_with(batch.lines));
    }
    assert!(matches!(batches.next(), Ok(None)));
    assert_eq!((batches.identity(), batches.whole(), batches.torn()), (IDENTITY, bytes.len() as u64, 0));
}

#[test]
fn cut_at_each_byte_it_has_the_whole_batches() {
    let Whole { bytes, ends, .. } = whole(24);
    for cut in 0..=bytes.len() {
        let count = ends[1..].iter().filter(|&&end| end <= cut).count() as u64;
        assert_eq!(told(&bytes[..cut]), Ok((1..=count).collect()), "cut at {cut}");
    }
}

#[test]
fn each_bit_that_is_flipped_is_found() {
    let Whole { mut bytes, ends, .. } = whole(12);
    for at in 0..bytes.len() {
        for bit in 0..8 {
            bytes[at] ^= 1 << bit;
            let damage = told(&bytes).expect_err("it is damaged");
            bytes[at] ^= 1 << bit;
            let batch = ends.iter().rposition(|&end| end <= at).expect("the first ends at 0");
            assert_eq!((damage.at, damage.length), (ends[batch] as u64, bytes.len() as u64), "byte {at}, bit {bit}");
            let behind = ends.len() - 2 - batch;
            assert!((behind..=behind + 1).contains(&damage.behind), "byte {at}, bit {bit}: {}", damage.behind);
        }
    }
}

/// The bytes with zeros in a sector.
fn without(bytes: &[u8], sector: usize) -> Vec<u8> {
    let (mut copy, size) = (bytes.to_vec(), SECTOR as usize);
    let end = ((sector + 1) * size).min(copy.len());
    copy[sector * size..end].fill(0);
    copy
}

#[test]
fn sectors_lost_in_the_last_batch_are_a_torn_write() {
    let mut dice = Dice::new(7);
    let mut whole = whole(20);
    let before = whole.bytes.len();
    let lines = transactions(&mut dice, 1000, 60);
    whole.add(&lines);
    let first = before.div_ceil(SECTOR as usize);
    let last = whole.bytes.len().div_ceil(SECTOR as usize);
    for _ in 0..1000 {
        let mut copy = whole.bytes.clone();
        for _ in 0..=dice.below(3) {
            copy = without(&copy, first + dice.below((last - first) as u64) as usize);
        }
        if dice.one_in(3) {
            copy.truncate(before + dice.below((whole.bytes.len() - before) as u64) as usize);
        }
        assert_eq!(told(&copy), Ok((1..=20).collect()));
    }
}

#[test]
fn a_sector_lost_before_the_last_batch_is_damage() {
    let whole = whole(60);
    let last = whole.ends[whole.ends.len() - 2] / SECTOR as usize;
    assert!(last > 8);
    for sector in 0..last {
        assert!(told(&without(&whole.bytes, sector)).is_err(), "sector {sector}");
    }
}

#[test]
fn batches_in_other_places_are_damage() {
    let Whole { bytes, ends, .. } = whole(20);
    let part = |from: usize, to: usize| &bytes[ends[from]..ends[to]];
    let swapped = [part(0, 10), part(11, 12), part(10, 11), part(12, 20)].concat();
    let twice = [part(0, 11), part(10, 11), part(11, 20)].concat();
    let left_out = [part(0, 10), part(11, 20)].concat();
    let without_beginning = part(1, 20).to_vec();
    for (copy, at) in [(swapped, ends[10]), (twice, ends[11]), (left_out, ends[10]), (without_beginning, 0)] {
        assert_eq!(told(&copy).map_err(|damage| damage.at), Err(at as u64));
    }
    // The same bytes as another series.
    let mut batches = Batches::new(bytes.as_slice(), Series::journal(2));
    assert!(matches!(batches.next(), Err(Fault::Damaged(Damage { at: 0, .. }))));
}

#[test]
fn any_bytes_are_judged() {
    let Whole { bytes, .. } = whole(6);
    let pieces: Vec<&[u8]> =
        bytes.split_inclusive(|&byte| byte == b'\n').chain([b"\0".as_slice(), b"batch/"]).collect();
    Dice::new(11).each(|dice| {
        let copy = dice.some(&pieces, 12);
        if let Ok(numbers) = told(&copy) {
            assert!(numbers.len() <= 6);
        }
    });
}
