//! Copies whose pieces are taken while calls go on.

use super::copy::{Broken, Copy as Copied};
use super::*;
use crate::testing::{core, Dice};
use ripsawbean::DumpPlace;

fn begun(core: &mut Core, to: u64) -> Copied {
    Copied::begin(core, DUMP, to).expect("there is memory")
}

/// One piece, or what has to be done.
fn step(core: &mut Core, copy: &mut Copied) -> Next {
    copy.turn(core, Instant::now()).expect("it is held")
}

/// The batches of a copy that need not wait.
fn batches(core: &mut Core, copy: &mut Copied) -> Vec<Vec<u8>> {
    let mut all = Vec::new();
    loop {
        let next = step(core, copy);
        assert_ne!(next, Next::Wait);
        if next != Next::More {
            all.push(copy.take());
        }
        if next == Next::Done {
            return all;
        }
    }
}

/// The lines of its batches, without their heads and the identity.
fn script(batches: &[Vec<u8>]) -> String {
    let lines = batches.iter().flat_map(|batch| batch.split_inclusive(|&byte| byte == b'\n').skip(1));
    let lines = lines.filter(|line| !line.starts_with(frame::CARRIER));
    String::from_utf8(lines.flatten().copied().collect()).expect("text")
}

/// The dump of all that there is, at once.
fn whole(core: &mut Core) -> String {
    let (mut place, mut out) = (DumpPlace::start(), Vec::new());
    while !place.has_ended() {
        core.dump_piece(0, u64::MAX, &mut place, &mut out).expect("there is memory");
    }
    String::from_utf8(out).expect("text")
}

#[test]
fn what_is_undecided_is_waited_for_and_the_horizon_stays() {
    let mut core = core(&NO_HISTORY);
    let (mut one, mut two) = (session(&mut core), session(&mut core));
    put(&mut core, &mut one, &[("a", "1"), ("b", "2"), ("a", "3")]);
    tidy(&mut core);
    say(&mut core, &mut one, "begin\nput . a 4\n");
    say(&mut core, &mut two, "begin\nput . c 5\ncommit .\nbegin\nput . d 6\n");
    let greatest = core.ledger.greatest;
    let mut copy = begun(&mut core, greatest);
    assert_eq!((step(&mut core, &mut copy), greatest, core.ledger.closed), (Next::Wait, 6, 3));
    say(&mut core, &mut one, "commit .\nbegin\nput . e 7\ncommit .\n");
    tidy(&mut core);
    assert_eq!((step(&mut core, &mut copy), core.ledger.closed, core.ledger.horizon), (Next::Wait, 5, 3));
    say(&mut core, &mut two, "del . a\ncommit .\n");
    assert_eq!((step(&mut core, &mut copy), core.ledger.closed), (Next::Done, 7));
    let lines = "begin 2,put 2 b 2,commit 2,begin 3,put 3 a 3,commit 3,begin 4,put 4 a 4,commit 4,begin 5,put 5 c 5,\
        commit 5,begin 6,del 6 a,put 6 d 6,commit 6,close 6,collect 3";
    let wanted: String = lines.split(',').map(|line| format!("0 {line}\n")).collect();
    assert_eq!(script(&[copy.take()]), wanted);
    copy.end(&mut core);
    tidy(&mut core);
    assert_eq!((core.ledger.horizon, core.shouts), (7, 0));
}

#[test]
fn a_copy_is_the_dump() {
    for seed in 0..20 {
        let (mut core, mut dice) = (core(&["--keep", "10", "--history", "0"]), Dice::new(seed));
        let mut one = session(&mut core);
        for _ in 0..dice.below(200) {
            let row = |dice: &mut Dice| match (dice.below(30), dice.below(50)) {
                (0, key) => format!("put . {key} {}\n", "%00".repeat(1 << dice.below(17))),
                (1..=9, key) => format!("del . {key}\n"),
                (_, key) => format!("put . {key} {}\n", "v".repeat(1 + dice.below(900) as usize)),
            };
            let rows: String = (0..dice.below(6)).map(|_| row(&mut dice)).collect();
            say(&mut core, &mut one, &format!("begin\n{rows}commit .\n"));
            if dice.one_in(30) {
                tidy(&mut core);
            }
        }
        let (closed, whole) = (core.ledger.closed, whole(&mut core));
        let mut copy = begun(&mut core, closed);
        assert_eq!(script(&batches(&mut core, &mut copy)), whole, "seed {seed}");
        // It ends there too where more has begun.
        let mut copy = begun(&mut core, closed);
        say(&mut core, &mut one, "begin\nput . later 1\ncommit .\nbegin\n");
        assert_eq!(script(&batches(&mut core, &mut copy)), whole, "seed {seed}");
    }
}

#[test]
fn a_copy_that_is_cut_behind_a_batch_is_not_whole() {
    let mut core = core(&NO_HISTORY);
    let mut one = session(&mut core);
    let value = "v".repeat(60_000);
    (0..40).for_each(|key| put(&mut core, &mut one, &[(&format!("k{key}"), &value)]));
    let mut copy = begun(&mut core, 40);
    let all = batches(&mut core, &mut copy);
    assert!(all.len() == 3 && all.iter().all(|batch| batch.len() < 1_300_000));
    let restored = |bytes: Vec<u8>| core_of(&Asked { restore: Some(crate::testing::file(&bytes)), ..asked(&folder()) });
    let mut after = restored(all.concat()).expect("it is whole");
    let mut two = session(&mut after);
    assert_eq!(rows(&mut after, &mut two).len(), 40);
    for (part, why) in [(0..1, "isn't whole"), (0..2, "isn't whole"), (1..3, "is damaged")] {
        let bytes = all[part].concat();
        let told = restored(bytes).err().expect("it is refused");
        assert!(told.contains(why), "{told}");
    }
}

#[test]
fn a_copy_that_lags_too_far_is_broken_but_no_checkpoint() {
    let mut core = core(&["--max-lag", "3", "--history", "0"]);
    let mut one = session(&mut core);
    put(&mut core, &mut one, &[("a", "1")]);
    let (mut dump, mut other) = (begun(&mut core, 1), begun(&mut core, 1));
    core.exempt = Some(other.protection());
    put(&mut core, &mut one, &[("a", "2"), ("a", "3"), ("a", "4"), ("a", "5"), ("a", "6")]);
    tidy(&mut core);
    assert_eq!(dump.turn(&mut core, Instant::now()), Err(Broken));
    assert_eq!((step(&mut core, &mut other), core.ledger.horizon), (Next::Done, 0));
    other.end(&mut core);
    dump.end(&mut core);
    tidy(&mut core);
    assert_eq!((core.ledger.protections.len(), core.ledger.horizon, core.shouts), (0, 6, 0));
}
