//! Plans in turns.

use super::*;

/// Runs a plan in turns, and does this behind each but the last: how it has ended, and how many turns it took.
fn in_turns<'p>(
    core: &mut Core,
    plan: &'p Plan<'_>,
    mut between: impl FnMut(&mut Core, usize),
) -> (Result<End<'p>, Stop>, usize) {
    let mut running = Running::begin(core, plan, Pace::Turns).expect("it begins");
    for turns in 1.. {
        let end = running.turn(core, None);
        // Its last part may be full, and pass over as many cuts as a part may.
        assert!(running.turn < 4 * SHORT, "a turn weighs {}", running.turn);
        if !matches!(end, Ok(None)) {
            assert!(!core.ledger.undecided.contains_key(&running.timestamp));
            return (end.map(|end| end.expect("it has ended")), turns);
        }
        between(core, turns);
    }
    unreachable!("it has an end")
}

/// Rows of many lengths, some of which are deleted.
fn with_many(dice: &mut Dice) -> Core {
    let mut core = core(&["--keep", "10"]);
    core.cuts = Cuts::of(100);
    let mut one = session(&mut core);
    say(&mut core, &mut one, "protect 0\n");
    for _ in 0..20 {
        let put = |dice: &mut Dice| {
            let length = if dice.one_in(3) { dice.below(65_536) } else { dice.below(3000) };
            format!("put . k{:05} {}\n", dice.below(9000), "v".repeat(length as usize))
        };
        let puts: String = (0..30).map(|_| put(dice)).collect();
        say(&mut core, &mut one, &format!("begin\n{puts}commit .\n"));
    }
    let short: String = (0..3000).map(|at| format!("put . l{at:05} v\n")).collect();
    let dels: String = (0..3000).filter(|at| at % 5 > 2).map(|at| format!("del . l{at:05}\n")).collect();
    say(&mut core, &mut one, &format!("begin\n{short}commit .\nbegin\n{dels}commit .\n"));
    core
}

#[test]
fn a_scan_in_turns_tells_what_one_call_tells() {
    let mut dice = Dice::new(5);
    let mut core = with_many(&mut dice);
    let (at, mut kinds) = (core.ledger.closed, [0; 4]);
    for _ in 0..300 {
        let lo = format!("{}{:05}", dice.of(&["k", "l"]), dice.below(9000));
        let hi = format!("{}{:05}", dice.of(&["k", "l"]), dice.below(9000));
        let (most, is_open) = (*dice.of(&[20, 4000]), lo >= hi);
        let limit = 1 + dice.below(most);
        let bound = if is_open { "null".into() } else { format!("\"{hi}\"") };
        let body = format!(r#"{{"then":[{{"scan":["{lo}",{bound}],"limit":{limit}}},{{"put":"a","value":""}}]}}"#);
        let span = Span { lo: lo.as_bytes(), hi: Some(hi.as_bytes()).filter(|_| !is_open) };
        let room = Room { rows: limit, bytes: MOST_BYTES };
        let whole = core.scan(Command::ScanAt { t: at, span }, room).expect("rows");
        let plan = plan(&body);
        let (done, turns) = in_turns(&mut core, &plan, |_, _| {});
        let Ok(End::Committed(done)) = done else { panic!("{body}: {done:?}") };
        let Some(Told::Rows { rows, more }) = done.results.into_iter().next() else { panic!("{body}") };
        kinds[if turns > 1 { 2 } else { 0 } + usize::from(more)] += 1;
        assert_eq!((more, rows.len()), (whole.next.is_some(), whole.rows.len()), "{body}");
        let keys: Vec<&[u8]> = whole.rows.iter().map(|(key, _)| key.as_slice()).collect();
        let versions = core.versions_at(at, &keys).expect("versions");
        assert!(rows.iter().map(|row| row.version).eq(versions), "{body}");
        let told = rows.into_iter().map(|row| (row.key.into_owned(), row.value.expect("it has one")));
        assert!(told.eq(whole.rows), "{body}");
    }
    assert!(kinds.iter().all(|&count| count > 10) && core.shouts == 0, "{kinds:?}");
}

#[test]
fn what_it_has_written_is_told_by_each_part() {
    let (mut core, _) = with_rows(5000);
    let body = r#"{"then":[{"put":"k00500","value":"x"},{"del":"k02500"},{"put":"k04999","value":"y"},
                   {"scan":["k",null],"limit":10000}]}"#;
    let plan = plan(body);
    let (Ok(End::Committed(done)), 1) = in_turns(&mut core, &plan, |_, _| {}) else { panic!("it commits") };
    let Told::Rows { rows, more: false } = &done.results[3] else { panic!("rows") };
    let told: Vec<String> = rows.iter().map(row).collect();
    assert_eq!(told.len(), 4999);
    assert_eq!((&told[500][..], &told[2499][..], &told[2500][..]), ("k00500=x@2", "k02499=2499@1", "k02501=2501@1"));
    assert_eq!(told[4998], "k04999=y@2");
}

/// Reads all rows, and then writes.
const READS_AND_WRITES: &str = r#"{"then":[{"scan":["k",null],"limit":10000},{"put":"z","value":"1"}]}"#;

#[test]
fn between_two_turns_others_write_and_it_reads_none_of_that() {
    let (mut core, mut one) = with_rows(5000);
    let plan = plan(READS_AND_WRITES);
    let (done, turns) = in_turns(&mut core, &plan, |core, turn| {
        let lines = format!("begin\nput . k00000 x{turn}\nput . k04999 x{turn}\nput . l{turn} x\ncommit .\n");
        assert_eq!(say(core, &mut one, &lines)[4], "committed 3");
        // Nothing is closed at or above it.
        assert_eq!(core.ledger.closed, 1);
    });
    let (Ok(End::Committed(done)), 2..) = (done, turns) else { panic!("it commits in turns") };
    let Told::Rows { rows, .. } = &done.results[0] else { panic!("rows") };
    assert_eq!((rows.len(), row(&rows[0]), row(&rows[4999])), (5000, "k00000=0@1".into(), "k04999=4999@1".into()));
    assert!(committed(&mut core, r#"{"then":[{"get":"z"},{"get":"k00000"}]}"#).contains(" z=1@2 k00000=x"));
}

#[test]
fn a_plan_that_was_overtaken_leaves_nothing_and_is_run_at_once() {
    for (lines, told) in [
        ("begin\nget . z\ncommit .\n", "committed 0"),
        ("closehard 2\n", "closed 2 1"),
        ("begin\nscan . a -\nabort .\nclosehard 3\n", "closed 3 1"),
    ] {
        let (mut core, mut one) = with_rows(5000);
        let plan = plan(READS_AND_WRITES);
        let (done, turns) = in_turns(&mut core, &plan, |core, turn| {
            if turn == 1 {
                assert_eq!(say(core, &mut one, lines).last().map(String::as_str), Some(told));
                tidy(core);
            }
        });
        assert!(matches!(done, Err(Stop::Overtaken)) && turns > 1, "{lines} {done:?}");
        assert_eq!((core.ledger.undecided.len(), core.shouts), (0, 0), "{lines}");
        assert!(committed(&mut core, r#"{"then":[{"get":"z"}]}"#).ends_with("z=none"));
        assert!(run(&mut core, &plan, Pace::Whole, None).is_ok(), "{lines}");
    }
}

#[test]
fn between_two_turns_it_conflicts_with_what_it_has_read_so_far() {
    let (mut core, mut one) = with_rows(5000);
    let mut two = session(&mut core);
    answers(&mut core, &mut one, "begin\n");
    answers(&mut core, &mut two, "begin\n");
    let plan = plan(READS_AND_WRITES);
    let (done, _) = in_turns(&mut core, &plan, |core, turn| {
        if turn == 1 {
            assert_eq!(answers(core, &mut one, "put . k00000 1\n"), ["toolate"]);
            assert_eq!(answers(core, &mut two, "put . k04999 1\n"), ["written"]);
        }
    });
    assert!(matches!(done, Err(Stop::Blocked(3, _))), "{done:?}");
    assert_eq!(core.ledger.undecided.len(), 1);
    say(&mut core, &mut two, "commit .\n");
    let (Ok(End::Committed(done)), _) = in_turns(&mut core, &plan, |_, _| {}) else { panic!("it commits") };
    let Told::Rows { rows, .. } = &done.results[0] else { panic!("rows") };
    assert_eq!(row(&rows[4999]), "k04999=1@3");
}

#[test]
fn unchanged_is_compared_in_turns() {
    let (mut core, mut one) = with_rows(2500);
    let long: String = (0..40).map(|row| format!("put . l{row:02} {}\n", "v".repeat(60_000))).collect();
    say(&mut core, &mut one, &format!("begin\n{long}commit .\n"));
    let since = core.ledger.closed;
    core.hold_snapshot(since, std::time::Duration::from_secs(60)).expect("it holds");
    let body = format!(r#"{{"if":[{{"span":["k",null],"unchanged":"{since}"}}],"then":[{{"put":"a","value":""}}]}}"#);
    let plan = plan(&body);
    // What others change meanwhile is changed later.
    let (done, turns) = in_turns(&mut core, &plan, |core, turn| {
        let told = say(core, &mut one, &format!("begin\nput . l39 {turn}\nput . m{turn} 1\ncommit .\n"));
        assert_eq!(told[3], "committed 2");
    });
    assert!(matches!(done, Ok(End::Committed(_))) && turns > 8, "{turns} turns: {done:?}");
    let (done, _) = in_turns(&mut core, &plan, |_, _| {});
    assert!(matches!(done, Ok(End::Failed(_))), "{done:?}");
}

#[test]
fn conditions_are_looked_at_in_turns() {
    let (mut core, mut one) = with_rows(3000);
    let conditions = |value: &str| {
        let one = |at: usize| format!(r#"{{"key":"k{at:05}","value":"{}"}}"#, value.replace("%", &at.to_string()));
        (0..3000).map(one).collect::<Vec<_>>().join(",")
    };
    let body = format!(r#"{{"if":[{}],"then":[{{"put":"a","value":""}}]}}"#, conditions("%"));
    let holds = plan(&body);
    let (done, turns) = in_turns(&mut core, &holds, |core, turn| {
        say(core, &mut one, &format!("begin\nput . k02999 {turn}\ncommit .\n"));
    });
    assert!(matches!(done, Ok(End::Committed(_))) && turns > 2, "{turns} turns: {done:?}");
    let (done, _) = in_turns(&mut core, &holds, |_, _| {});
    let Ok(End::Failed(failed)) = done else { panic!("{done:?}") };
    assert_eq!(failed.found.len(), 1);
    let body = format!(r#"{{"if":[{}],"then":[]}}"#, conditions("x"));
    let fails = plan(&body);
    let (Ok(End::Failed(failed)), 2..) = in_turns(&mut core, &fails, |_, _| {}) else { panic!("it fails") };
    assert!(failed.found.iter().map(|(at, _)| *at).eq(0..3000));
}

#[test]
fn a_turn_passes_over_few_deleted_keys() {
    let (mut core, _) = with_rows(0);
    core.cuts = Cuts::of(1);
    let mut one = session(&mut core);
    say(&mut core, &mut one, "protect 0\n");
    for command in ["put . k%02 x\n", "del . k%02\n"] {
        let lines: String = (0..40).map(|at| command.replace("%02", &format!("{at:02}"))).collect();
        say(&mut core, &mut one, &format!("begin\n{lines}commit .\n"));
    }
    let plan = plan(r#"{"then":[{"scan":["k","k32"]}]}"#);
    let (done, turns) = in_turns(&mut core, &plan, |_, _| {});
    assert!(done.is_ok() && turns == 7, "{turns} turns: {done:?}");
}
