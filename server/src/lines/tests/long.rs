//! Lines whose call holds the lock for longer than a turn: each is left where it may not, and goes on where it may.

use super::*;
use crate::door::Length;
use crate::testing::say;

/// Rows, deleted keys, large ones, a feed that is far behind, one that isn't, and two transactions of many rows.
fn filled() -> (Core, Session) {
    let mut core = core(&["--keep", "10", "--max-message", "10000000"]);
    core.cuts = Cuts::of(1);
    let mut one = session(&mut core);
    let rows: String = (0..6000).map(|row| format!("put . k{row:04} {}\n", "v".repeat(40))).collect();
    say(&mut core, &mut one, &format!("protect 0\nopen a b 0\nbegin 1\n{rows}commit .\n"));
    let dels: String = (0..10).map(|row| format!("del . d{row}\n")).collect();
    say(&mut core, &mut one, &format!("begin 2\n{dels}commit .\nopen l m 2\nopen l m 2\n"));
    let large: String = (0..5).map(|row| format!("put . l{row} {}\n", "v".repeat(65_000))).collect();
    say(&mut core, &mut one, &format!("begin 3\n{large}commit .\n"));
    let [few, many] = [5000, 5001].map(|count| "put . x 1\n".repeat(count));
    answers(&mut core, &mut one, &format!("begin 11\n{few}begin 12\n{many}begin 13\n{many}begin 14\n"));
    (core, one)
}

#[test]
fn a_line_whose_call_is_long_waits_for_the_lane() {
    let (mut core, mut one) = filled();
    let long =
        "scan . k l|scanat 3 k l|scan . l m|scan . d e|scanat 3 d e|poll 1 1|poll 2 9|commit 12|abort 13|closehard 1|\
                collect 1";
    let short =
        "scan . k k4000|scanat 3 k k4000|scan . l l2|scan . d d4|scan . e f|poll 3 1|poll 9 1|commit 11|commit 12|\
                 commit .|get . k0000|readat 3 l0|put . a scan|stats|scan|scan . a|poll|commit|collect|close 3|";
    for (lines, length) in [(long, Length::Long), (short, Length::Short)] {
        for line in lines.split('|') {
            let mut lines = Lines::new(format!("stats\n{line}\nreadat 0 b\n").into_bytes());
            let far = Instant::now() + Duration::from_secs(60);
            let (before, mut turns) = (one.lines, Vec::new());
            for length in [Length::Short, Length::Long] {
                lines.length = length;
                turns.push((lines.turn(&mut core, &mut one, far).expect("there is memory"), one.lines - before));
            }
            let expected = match length {
                Length::Short => [(Turn::Done, 3); 2],
                Length::Long => [(Turn::Long, 1), (Turn::Done, 3)],
            };
            assert_eq!(turns, expected, "{line}");
        }
    }
    assert_eq!(core.shouts, 0);
}

#[test]
fn what_is_refused_as_too_long_is_refused_where_it_may_be_long() {
    let mut core = core(&["--max-answer", "300000"]);
    let mut one = session(&mut core);
    let rows: String = (0..5).map(|row| format!("put . l{row} {}\n", "v".repeat(65_000))).collect();
    say(&mut core, &mut one, &format!("begin\n{rows}commit .\n"));
    let far = Instant::now() + Duration::from_secs(60);
    let mut lines = Lines::new(b"scanat 1 l m\n".to_vec());
    for (length, turn, has_fault) in [(Length::Short, Turn::Long, false), (Length::Long, Turn::Done, true)] {
        lines.length = length;
        assert_eq!(lines.turn(&mut core, &mut one, far), Ok(turn));
        assert_eq!(lines.told.has_fault, has_fault);
    }
    // Behind an answer that leaves room for a short one alone, it is known at once.
    let mut lines = Lines::new(b"scanat 1 l l1\nscanat 1 l m\n".to_vec());
    lines.length = Length::Short;
    assert_eq!((lines.turn(&mut core, &mut one, far), lines.told.has_fault), (Ok(Turn::Done), true));
}

#[test]
fn a_session_with_a_transaction_of_many_rows_ends_in_the_lane() {
    let mut core = core(&["--keep", "10"]);
    let [mut few, mut many] = [(); 2].map(|()| session(&mut core));
    let far = Instant::now() + Duration::from_secs(60);
    for (one, count, turn, left) in [(&mut few, 5000, Turn::Done, 0), (&mut many, 5001, Turn::Long, 1)] {
        answers(&mut core, one, &format!("begin\n{}", "put . a 1\n".repeat(count)));
        assert_eq!((core.end(one.seat, far, Length::Short), core.ledger.undecided.len()), (turn, left));
        assert_eq!((core.end(one.seat, far, Length::Long), core.ledger.undecided.len()), (Turn::Done, 0));
    }
    assert_eq!((core.shouts, core.seats.count()), (0, 0));
}
