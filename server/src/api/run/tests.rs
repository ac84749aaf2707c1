//! Plans beside sessions, without sockets. server/testing/test_plans.py compares them with a model over HTTP.

use super::*;
use crate::api::pages::MOST_BYTES;
use crate::core::Core;
use crate::cuts::Cuts;
use crate::door::Length;
use crate::seats::Session;
use crate::testing::{answers, core, end, run, say, session, session_of, tidy, Dice};
use ripsawbean::{Room, Span};

mod turns;

fn plan(body: &str) -> Plan<'_> {
    Plan::of(body.as_bytes()).expect(body)
}

/// Runs a plan, and closes.
fn told<'p>(core: &mut Core, plan: &'p Plan<'_>) -> Result<End<'p>, Stop> {
    let short = match plan.length() {
        Length::Short => run(core, plan, Pace::Short, None),
        Length::Long => Err(Stop::Long),
    };
    let end = match short {
        Err(Stop::Long) => run(core, plan, Pace::Turns, None),
        end => end,
    };
    core.settle(std::time::Instant::now());
    assert_eq!(core.shouts, 0);
    end
}

fn committed(core: &mut Core, body: &str) -> String {
    let plan = plan(body);
    match told(core, &plan) {
        Ok(End::Committed(done)) => {
            format!("{} {:?} {} {}", done.timestamp, done.branch, done.written, results(&done.results))
        }
        other => panic!("{body}: {other:?}"),
    }
}

fn failed(core: &mut Core, body: &str) -> String {
    let plan = plan(body);
    match told(core, &plan) {
        Ok(End::Failed(failed)) => {
            let found = failed.found.iter().map(|(at, one)| format!("{at}:{}", one.as_ref().map_or("?".into(), row)));
            format!("{} {}", failed.timestamp, found.collect::<Vec<_>>().join(" "))
        }
        other => panic!("{body}: {other:?}"),
    }
}

fn stopped(core: &mut Core, body: &str) -> (u16, &'static str) {
    let plan = plan(body);
    match told(core, &plan) {
        Err(stop) => {
            let refusal = stop.refusal();
            (refusal.status, refusal.error)
        }
        other => panic!("{body}: {other:?}"),
    }
}

fn results(results: &[Told<'_>]) -> String {
    let told = results.iter().map(|result| match result {
        Told::Nothing => "-".to_string(),
        Told::Row(one) => row(one),
        Told::Rows { rows, more } => {
            format!("[{}{}]", rows.iter().map(row).collect::<Vec<_>>().join(","), if *more { ".." } else { "" })
        }
    });
    told.collect::<Vec<_>>().join(" ")
}

fn row(row: &Row<'_>) -> String {
    let text = |bytes: &[u8]| String::from_utf8_lossy(bytes).into_owned();
    match (&row.value, row.version) {
        (Some(value), Some(version)) => format!("{}={}@{version}", text(&row.key), text(value)),
        (None, None) => format!("{}=none", text(&row.key)),
        other => panic!("{other:?}"),
    }
}

fn with_rows(count: usize) -> (Core, Session) {
    let mut core = core(&["--history", "0"]);
    let mut one = session(&mut core);
    let puts: String = (0..count).map(|row| format!("put . k{row:05} {row}\n")).collect();
    say(&mut core, &mut one, &format!("begin\n{puts}commit .\n"));
    (core, one)
}

#[test]
fn steps_are_done_in_their_order() {
    let mut core = core(&[]);
    let first = r#"{"then":[{"get":"a"},{"put":"a","value":"1"},{"get":"a"},{"put":"b","value":"2"},{"del":"a"},
                    {"get":"a"},{"scan":[null,null]}]}"#;
    assert_eq!(committed(&mut core, first), "1 Then 2 a=none - a=1@1 - - a=none [b=2@1]");
    let second = r#"{"then":[{"scan":[null,null]},{"put":"a","value":"3"},{"scan":["a","c"],"limit":1},{"get":"b"}]}"#;
    assert_eq!(committed(&mut core, second), "2 Then 1 [b=2@1] - [a=3@2..] b=2@1");
    assert_eq!(committed(&mut core, "{}"), "3 Then 0 ");
    assert_eq!(core.ledger.undecided.len(), 0);
}

#[test]
fn conditions_choose_the_branch() {
    let mut core = core(&[]);
    committed(&mut core, r#"{"then":[{"put":"a","value":"1"},{"put":"b","value":""}]}"#);
    for (condition, holds) in [
        (r#"{"key":"a","value":"1"}"#, true),
        (r#"{"key":"a","value":""}"#, false),
        (r#"{"key":"b","value":""}"#, true),
        (r#"{"key":"c","value":""}"#, false),
        (r#"{"key":"a","absent":false}"#, true),
        (r#"{"key":"a","absent":true}"#, false),
        (r#"{"key":"c","absent":true}"#, true),
        (r#"{"key":"a","version":"1"}"#, true),
        (r#"{"key":"a","version":"0"}"#, false),
        (r#"{"key":"c","version":"0"}"#, true),
        (r#"{"key":"c","version":"1"}"#, false),
        (r#"{"span":[null,null],"unchanged":"1"}"#, true),
        (r#"{"span":[null,null],"unchanged":"0"}"#, false),
        (r#"{"span":["c",null],"unchanged":"0"}"#, true),
    ] {
        let told = committed(&mut core, &format!(r#"{{"if":[{condition}],"then":[],"else":[{{"get":"c"}}]}}"#));
        assert_eq!(told.contains("Then"), holds, "{condition}");
        assert_eq!(told.contains("Else 0 c=none"), !holds, "{condition}");
    }
}

#[test]
fn each_condition_that_fails_is_told_and_nothing_is_done() {
    let mut core = core(&[]);
    committed(&mut core, r#"{"then":[{"put":"a","value":"1"}]}"#);
    let body = r#"{"if":[{"key":"a","value":"2"},{"key":"a","absent":false},{"span":[null,null],"unchanged":"0"},
                   {"key":"b","version":"1"}],"then":[{"put":"b","value":"2"}]}"#;
    assert_eq!(failed(&mut core, body), "2 0:a=1@1 2:? 3:b=none");
    assert_eq!(committed(&mut core, r#"{"then":[{"scan":[null,null]}]}"#), "3 Then 0 [a=1@1]");
}

#[test]
fn a_deleted_key_has_no_version() {
    let mut core = core(&[]);
    committed(&mut core, r#"{"then":[{"put":"a","value":"1"}]}"#);
    committed(&mut core, r#"{"then":[{"del":"a"}]}"#);
    let body = r#"{"if":[{"key":"a","version":"0"}],"then":[{"get":"a"},{"put":"a","value":"2"}]}"#;
    assert_eq!(committed(&mut core, body), "3 Then 1 a=none -");
}

#[test]
fn what_is_undecided_blocks_and_nothing_is_left() {
    let mut core = core(&[]);
    let mut one = session(&mut core);
    answers(&mut core, &mut one, "begin\nput . b 1\n");
    for body in [
        r#"{"then":[{"put":"a","value":"1"},{"get":"b"}]}"#,
        r#"{"then":[{"scan":["a","c"]}]}"#,
        r#"{"if":[{"key":"b","absent":true}]}"#,
        r#"{"if":[{"span":[null,null],"unchanged":"0"}]}"#,
    ] {
        let plan = plan(body);
        let Err(Stop::Blocked(by, decision)) = told(&mut core, &plan) else { panic!("{body}") };
        assert_eq!((by, decision.has_changed().is_ok()), (1, true));
        assert_eq!(core.ledger.undecided.len(), 1);
    }
    let plan = plan(r#"{"then":[{"get":"b"},{"get":"a"}]}"#);
    let Err(Stop::Blocked(_, decision)) = told(&mut core, &plan) else { panic!("it is blocked") };
    say(&mut core, &mut one, "commit .\n");
    assert!(decision.has_changed().is_err(), "its decision wakes who waits for it");
    let Ok(End::Committed(done)) = told(&mut core, &plan) else { panic!("it isn't blocked") };
    assert_eq!(results(&done.results), "b=1@1 a=none");
    // What it doesn't read doesn't block it.
    answers(&mut core, &mut one, "begin\nput . z 1\n");
    assert!(committed(&mut core, r#"{"then":[{"scan":["a","c"]},{"put":"z","value":"2"}]}"#).contains("[b=1@1] -"));
    end(&mut core, &one);
}

#[test]
fn a_scan_reads_and_conflicts_as_far_as_it_tells() {
    let (mut core, mut one) = with_rows(300);
    let mut two = session(&mut core);
    answers(&mut core, &mut one, "begin\n");
    answers(&mut core, &mut two, "begin\n");
    let told = committed(&mut core, r#"{"then":[{"scan":["k00010",null],"limit":3}]}"#);
    assert!(told.ends_with("[k00010=10@1,k00011=11@1,k00012=12@1..]"), "{told}");
    // It has read one row more, and none above it.
    assert_eq!(answers(&mut core, &mut one, "put . k00011x 1\n"), ["toolate"]);
    assert_eq!(answers(&mut core, &mut two, "put . k00014 1\ncommit .\n"), ["written", "committed 1"]);
}

#[test]
fn a_scan_goes_on_where_rows_were_deleted_above_closed() {
    let (mut core, mut one) = with_rows(50);
    // Closed stays below what is deleted.
    answers(&mut core, &mut one, "begin\n");
    let dels: String = (0..40).map(|row| format!("{{\"del\":\"k{row:05}\"}}")).collect::<Vec<_>>().join(",");
    committed(&mut core, &format!(r#"{{"then":[{dels},{{"put":"k00005","value":"x"}}]}}"#));
    assert_eq!(core.ledger.closed, 1);
    let told = committed(&mut core, r#"{"then":[{"scan":[null,null],"limit":3}]}"#);
    assert!(told.ends_with("[k00005=x@3,k00040=40@1,k00041=41@1..]"), "{told}");
    let told = committed(&mut core, r#"{"then":[{"scan":["k00046",null],"limit":4}]}"#);
    assert!(told.ends_with("k00049=49@1]"), "{told}");
}

#[test]
fn long_rows_end_a_scan_early() {
    let mut core = core(&["--keep", "10"]);
    let value = "v".repeat(60_000);
    for row in 0..80 {
        committed(&mut core, &format!(r#"{{"then":[{{"put":"{row:02}","value":"{value}"}}]}}"#));
    }
    let plan = plan(r#"{"then":[{"scan":[null,null]}]}"#);
    let Ok(End::Committed(done)) = told(&mut core, &plan) else { panic!("it commits") };
    let Told::Rows { rows, more } = &done.results[0] else { panic!("rows") };
    assert!((40..80).contains(&rows.len()) && *more, "{} rows", rows.len());
}

#[test]
fn unchanged_is_of_values_and_sees_new_keys() {
    let (mut core, _) = with_rows(2500);
    let holds = |core: &mut Core, since: u64| {
        let body =
            format!(r#"{{"if":[{{"span":["k",null],"unchanged":"{since}"}}],"then":[],"else":[{{"get":"z"}}]}}"#);
        committed(core, &body).contains("Then")
    };
    assert!(holds(&mut core, 1));
    let at = core.ledger.closed;
    core.hold_snapshot(at, std::time::Duration::from_secs(60)).expect("it holds");
    for (change, back) in [
        (r#"{"put":"k01234","value":"x"}"#, r#"{"put":"k01234","value":"1234"}"#),
        (r#"{"put":"k02499x","value":""}"#, r#"{"del":"k02499x"}"#),
        (r#"{"put":"k","value":""}"#, r#"{"del":"k"}"#),
        (r#"{"del":"k00000"}"#, r#"{"put":"k00000","value":"0"}"#),
    ] {
        committed(&mut core, &format!(r#"{{"then":[{change}]}}"#));
        tidy(&mut core);
        assert!(!holds(&mut core, at), "{change}");
        committed(&mut core, &format!(r#"{{"then":[{back}]}}"#));
        assert!(holds(&mut core, at), "{back}");
    }
    committed(&mut core, r#"{"then":[{"put":"a","value":""}]}"#);
    assert!(holds(&mut core, at), "outside of the span");
}

#[test]
fn unchanged_sees_what_is_committed_above_closed() {
    let (mut core, mut one) = with_rows(10);
    answers(&mut core, &mut one, "begin\n");
    let body = r#"{"if":[{"span":["k",null],"unchanged":"1"}],"then":[{"put":"k","value":""}]}"#;
    committed(&mut core, body);
    assert_eq!(core.ledger.closed, 1);
    assert_eq!(failed(&mut core, body), "4 0:?");
}

#[test]
fn unchanged_has_to_be_a_snapshot_that_can_be_read() {
    let (mut core, _) = with_rows(1);
    committed(&mut core, r#"{"then":[{"put":"a","value":""}]}"#);
    tidy(&mut core);
    let unchanged = |at: u64| format!(r#"{{"if":[{{"span":["k",null],"unchanged":"{at}"}}]}}"#);
    assert_eq!(stopped(&mut core, &unchanged(3)), (409, "notclosed"));
    assert_eq!(stopped(&mut core, &unchanged(1)), (410, "belowhorizon"));
    assert_eq!(core.ledger.greatest, 2, "nothing was begun");
}

#[test]
fn a_transaction_passes_over_few_deleted_keys() {
    let (mut core, _) = with_rows(0);
    core.cuts = Cuts::of(1);
    let mut one = session(&mut core);
    say(&mut core, &mut one, "protect 0\n");
    for command in ["put . k%02 x\n", "del . k%02\n"] {
        let lines: String = (0..40).map(|at| command.replace("%02", &format!("{at:02}"))).collect();
        say(&mut core, &mut one, &format!("begin\n{lines}commit .\n"));
    }
    say(&mut core, &mut one, "begin\nput . k30a 1\nput . k39a 1\ncommit .\n");
    let scan = |lo: &str, hi: &str, limit: u64| format!(r#"{{"scan":["{lo}","{hi}"],"limit":{limit}}}"#);
    let both = |one: &str, other: &str| format!(r#"{{"then":[{one},{other}]}}"#);
    for (scans, is_made) in [
        (both(&scan("k", "k32", 9), r#"{"get":"a"}"#), true),
        (both(&scan("k", "k33", 9), r#"{"get":"a"}"#), false),
        // What is told is found before.
        (both(&scan("k", "l", 1), r#"{"get":"a"}"#), true),
        (both(&scan("k", "l", 2), r#"{"get":"a"}"#), false),
        // Each scan counts.
        (both(&scan("k00", "k17", 9), &scan("k00", "k17", 9)), true),
        (both(&scan("k00", "k18", 9), &scan("k00", "k18", 9)), false),
    ] {
        let plan = plan(&scans);
        let made = told(&mut core, &plan).map_err(|stop| stop.refusal().error);
        assert_eq!(made.is_ok(), is_made, "{scans} {made:?}");
        assert!(made.is_ok() || made == Err("toomuch"), "{scans}");
    }
}

#[test]
fn a_short_one_is_stopped_where_it_has_read_much() {
    let mut core = core(&["--keep", "10"]);
    core.cuts = Cuts::of(1);
    let mut one = session(&mut core);
    let puts = |prefix: &str, count: usize, length: usize| {
        let puts: String = (0..count).map(|row| format!("put . {prefix}{row:03} {}\n", "v".repeat(length))).collect();
        format!("begin\n{puts}commit .\n")
    };
    for lines in [puts("a", 20, 60_000), puts("b", 300, 1000), puts("c", 1000, 1), puts("d", 10, 1)] {
        say(&mut core, &mut one, &lines);
    }
    tidy(&mut core);
    let dels: String = (0..10).map(|row| format!("del . d{row:03}\n")).collect();
    say(&mut core, &mut one, &format!("begin\n{dels}commit .\n"));
    let gets = |count: usize| (0..count).map(|at| format!(r#"{{"get":"a{at:03}"}}"#)).collect::<Vec<_>>().join(",");
    let scan = |lo: &str, hi: &str| format!(r#"{{"scan":["{lo}","{hi}"]}}"#);
    let put = |steps: &str| format!(r#"{{"then":[{{"put":"z","value":"1"}},{steps}]}}"#);
    for (body, is_short) in [
        (put(&gets(4)), true),
        (put(&gets(5)), false),
        (put(&scan("a", "a004")), true),
        (put(&scan("a", "a005")), false),
        (put(&scan("b", "b200")), true),
        (put(&scan("b", "b250")), false),
        (put(&[scan("b", "b200"), gets(1)].join(",")), false),
        (put(&[scan("b", "b150"), scan("c", "c010")].join(",")), true),
        (put(&scan("c", "d")), true),
        (put(&scan("d", "d004")), true),
        (put(&scan("d", "d005")), false),
        (put(&[scan("d", "d002"), scan("d", "d003")].join(",")), false),
        (put(&[scan("d", "d002"), scan("d", "d002")].join(",")), true),
        (format!(r#"{{"if":[{{"key":"a000","absent":false}}],"then":[{}]}}"#, gets(3)), true),
        (format!(r#"{{"if":[{{"key":"a000","absent":false}}],"then":[{}]}}"#, gets(4)), false),
    ] {
        let plan = plan(&body);
        match run(&mut core, &plan, Pace::Short, None) {
            Ok(End::Committed(_)) => assert!(is_short, "{body}"),
            Err(Stop::Long) => assert!(!is_short, "{body}"),
            other => panic!("{body}: {other:?}"),
        }
        assert!(core.ledger.undecided.is_empty() && core.shouts == 0);
        assert!(run(&mut core, &plan, Pace::Whole, None).is_ok(), "{body}");
    }
}

#[test]
fn a_transaction_is_bounded() {
    let (mut core, _) = with_rows(11_000);
    let scans =
        |count: usize| format!(r#"{{"then":[{}]}}"#, vec![r#"{"scan":[null,null],"limit":10000}"#; count].join(","));
    assert!(run(&mut core, &plan(&scans(3)), Pace::Turns, None).is_ok());
    assert_eq!(stopped(&mut core, &scans(4)), (422, "toomuch"));
    let mut core = crate::testing::core(&["--max-reply", "1000"]);
    committed(&mut core, &format!(r#"{{"then":[{{"put":"a","value":"{}"}}]}}"#, "x".repeat(600)));
    assert_eq!(
        stopped(&mut core, r#"{"then":[{"get":"a"},{"put":"b","value":""},{"get":"a"}]}"#),
        (422, "replytoolong")
    );
    assert!(committed(&mut core, r#"{"then":[{"get":"a"},{"get":"b"}]}"#).ends_with("b=none"));
    assert_eq!(core.ledger.undecided.len(), 0);
}

#[test]
fn where_memory_is_full_keys_are_deleted_alone() {
    let mut core = core(&["--max-memory", "1000"]);
    core.watch_memory(1001);
    assert_eq!(stopped(&mut core, r#"{"then":[{"del":"a"},{"put":"a","value":"1"}]}"#), (503, "full"));
    assert_eq!(committed(&mut core, r#"{"then":[{"del":"a"},{"get":"a"}]}"#), "2 Then 1 - a=none");
}

/// Runs a plan of a thousand such steps again and again, until it is refused: how often it was not.
fn until_full(core: &mut Core, step: &str) -> usize {
    let body = format!(r#"{{"then":[{}]}}"#, vec![step; 1000].join(","));
    let plan = plan(&body);
    let count = (0..100).take_while(|_| told(core, &plan).is_ok()).count();
    assert_eq!(stopped(core, &body), (503, "full"));
    count
}

#[test]
fn while_memory_is_full_there_is_a_bound_of_what_is_read_and_isnt_closed() {
    let mut core = core(&["--max-memory", "1000"]);
    let mut old = session(&mut core);
    answers(&mut core, &mut old, "begin\n");
    core.watch_memory(1001);
    let count = until_full(&mut core, r#"{"get":"a"}"#);
    assert!((5..50).contains(&count), "{count} plans");
    assert_eq!(stopped(&mut core, "{}"), (503, "full"));
    say(&mut core, &mut old, "abort .\n");
    assert!(committed(&mut core, r#"{"then":[{"get":"a"}]}"#).ends_with("a=none"));
}

#[test]
fn while_memory_is_full_there_is_a_bound_of_what_is_deleted_and_isnt_collected() {
    let mut core = core(&["--max-memory", "1000"]);
    core.watch_memory(1001);
    let count = until_full(&mut core, r#"{"del":"a"}"#);
    assert!((5..50).contains(&count), "{count} plans");
    assert!(committed(&mut core, r#"{"then":[{"get":"a"}]}"#).ends_with("a=none"));
    assert_eq!(core.ledger.undecided.len(), 0);
}

#[test]
fn where_the_server_ends_nothing_begins() {
    let mut core = core(&[]);
    core.limits.is_draining = true;
    assert_eq!(stopped(&mut core, "{}"), (503, "draining"));
    assert_eq!(core.ledger.calls, 0);
}

#[test]
fn all_seats_may_be_taken() {
    let mut core = core(&[]);
    let sessions: Vec<Session> = (0..64).map(|at| session_of(&mut core, at / 32)).collect();
    assert!(committed(&mut core, r#"{"then":[{"put":"a","value":"1"}]}"#).contains("Then 1"));
    sessions.iter().for_each(|one| end(&mut core, one));
    assert_eq!(core.ledger.undecided.len(), 0);
}
