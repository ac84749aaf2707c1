//! Lines of a session beside the database itself: what README promises of them.

mod long;

use super::*;
use crate::cuts::Cuts;
use crate::gate::{Right, Who};
use crate::options::LONGEST_ROW;
use crate::testing::{answers, core, end, session, session_of, texts, tidy, Dice};
use ripsawbean::{Command, Span, MOST_ROWS};
use std::time::Duration;

#[test]
fn a_timestamp_is_drawn_and_put_in_for_the_dot() {
    let mut core = core(&[]);
    let mut one = session(&mut core);
    let told = texts(&mut core, &mut one, "begin\nput . a 1\nget . a\ncommit .\n");
    let seat = one.seat;
    let expected = format!(
        "0 {seat} begin 1 => started\n1 {seat} put 1 a 1 => written\n2 {seat} get 1 a => value 1\n\
         3 {seat} commit 1 => committed 1\n"
    );
    assert_eq!(told, expected);
}

#[test]
fn drawn_timestamps_are_above_all_that_began_and_above_closed() {
    let mut core = core(&[]);
    let mut one = session(&mut core);
    answers(&mut core, &mut one, "begin 7\ncommit 7\nbegin\n");
    assert_eq!(core.ledger.undecided.keys().copied().collect::<Vec<_>>(), [8]);
    answers(&mut core, &mut one, "commit .\nclose 20\nbegin\n");
    assert_eq!(core.ledger.undecided.keys().copied().collect::<Vec<_>>(), [21]);
}

#[test]
fn a_dot_of_one_session_is_not_the_others() {
    let mut core = core(&[]);
    let (mut one, mut two) = (session(&mut core), session(&mut core));
    answers(&mut core, &mut one, "begin\n");
    answers(&mut core, &mut two, "begin\n");
    assert_eq!(answers(&mut core, &mut one, "commit .\n"), ["committed 0"]);
    assert_eq!(core.ledger.undecided.keys().copied().collect::<Vec<_>>(), [2]);
}

#[test]
fn where_begin_is_refused_no_line_goes_to_the_transaction_before() {
    let mut core = core(&[]);
    let mut one = session(&mut core);
    answers(&mut core, &mut one, "begin\n");
    assert_eq!(answers(&mut core, &mut one, "begin 1\nput . a 1\n"), ["tsused", "fault 3 3 number"]);
    let told = texts(&mut core, &mut one, "put . a 1\n");
    assert_eq!(told, "fault 4 3 number the dot stands for no transaction: begin came to nothing, or wasn't there\n");
}

#[test]
fn a_dot_elsewhere_is_itself() {
    let mut core = core(&[]);
    let mut one = session(&mut core);
    let told = answers(&mut core, &mut one, "begin\nput . . .\nget . .\nput .x a 1\nreadat . a\n");
    assert_eq!(told, ["started", "written", "value .", "fault 4 3 number", "fault 5 3 number"]);
}

#[test]
fn faults_are_numbered_and_the_session_goes_on() {
    let mut core = core(&[]);
    let mut one = session(&mut core);
    assert_eq!(
        answers(&mut core, &mut one, "foo\n\nput 1 a\nbegin\r\nstats\n0 begin 10\n"),
        [
            "fault 1 2 unknowncommand",
            "fault 2 1 wordcount",
            "fault 3 1 wordcount",
            "fault 4 9 badbyte",
            "stats 0 0 0 0 0",
            "fault 6 2 unknowncommand"
        ]
    );
    assert_eq!(core.ledger.refusals.get("unknowncommand"), Some(&2));
}

#[test]
fn half_a_line_is_no_line() {
    let mut core = core(&[]);
    let mut one = session(&mut core);
    assert_eq!(answers(&mut core, &mut one, "begin\nput . a 12"), ["started", "fault 2 7 nonewline"]);
    assert_eq!(answers(&mut core, &mut one, "34\ncommit .\n"), ["fault 3 2 unknowncommand", "aborted"]);
    assert_eq!(answers(&mut core, &mut one, "begin"), ["fault 5 7 nonewline"]);
    assert_eq!(core.ledger.undecided.len(), 0);
}

#[test]
fn far_ahead_is_refused() {
    let mut core = core(&["--ahead", "100"]);
    let mut one = session(&mut core);
    let lines = "begin 101\nbegin 100\nclose 201\nclosehard 201\nclose 9223372036854775807\n";
    let ahead = |line| format!("fault {line} 65 ahead");
    assert_eq!(answers(&mut core, &mut one, lines), [ahead(1), "started".to_string(), ahead(3), ahead(4), ahead(5)]);
    for digits in ["9".repeat(19), "9".repeat(20), "9".repeat(5000), "18446744073709551616".to_string()] {
        let told = answers(&mut core, &mut one, &format!("begin {digits}\n"));
        assert!(told[0].ends_with(" 65 ahead"), "{told:?}");
    }
    assert_eq!(answers(&mut core, &mut one, "close 200\n"), ["closed 99 0"]);
}

#[test]
fn the_servers_feeds_and_protections_are_not_a_sessions() {
    let mut core = core(&[]);
    core.ask(Owner::Server, Command::Open { span: Span::ALL, cursor: 0 }).expect("a call");
    core.ask(Owner::Server, Command::Protect { t: 0 }).expect("a call");
    // Also not of the session that has the seat of the server's own calls.
    let mut last = (0..64).map(|at| session_of(&mut core, at / 32)).last().expect("there are seats");
    assert_eq!(last.seat, 63);
    let told = answers(&mut core, &mut last, "poll 1 5\nrelease 1\ncancel 1\n");
    assert_eq!(told, ["fault 1 64 notyours", "fault 2 64 notyours", "cancelled"]);
}

#[test]
fn beyond_the_longest_reply_no_call_is_made() {
    let mut core = core(&["--max-reply", "200"]);
    let mut one = session(&mut core);
    let told = answers(&mut core, &mut one, &"stats\n".repeat(20));
    let made = told.iter().filter(|answer| *answer == "stats 0 0 0 0 0").count();
    assert!(0 < made && made < 20);
    assert_eq!(told.len(), 20);
    assert_eq!(told[made], format!("fault {} 66 replytoolong", made + 1));
    assert_eq!(core.ledger.calls, made as u64);
}

#[test]
fn an_answer_that_would_be_too_long_makes_no_call() {
    let mut core = core(&["--max-answer", "65809"]);
    let mut one = session(&mut core);
    let value = "v".repeat(30_000);
    answers(&mut core, &mut one, &format!("begin\nput . a {value}\nput . b {value}\nput . c {value}\ncommit .\n"));
    answers(&mut core, &mut one, "close 1\nopen - - 0\n");
    let calls = core.ledger.calls;
    for line in ["scan . - -", "scanat 1 - -", "poll 1 3"] {
        let told = texts(&mut core, &mut one, &format!("begin\n{line}\nstats\n"));
        assert!(told.contains(" 25 answertoolong the answers to this message would be longer"), "{line}: {told:.200}");
        assert!(told.contains(" stats => stats "), "the session goes on");
    }
    // Each `begin` and each `stats` made a call.
    assert_eq!(core.ledger.calls, calls + 6);
    assert_eq!(core.ledger.refusals.get("answertoolong"), Some(&3));
    // What asks for less is answered, and the feed has told nothing before.
    for line in ["begin\nscan . a c", "scanat 1 b -", "poll 1 2"] {
        let told = texts(&mut core, &mut one, &format!("{line}\n"));
        assert!(told.contains("=> rows 2\n") || told.contains("=> messages 2\n"), "{line}: {told:.200}");
    }
}

#[test]
fn a_scan_of_more_rows_than_are_let_through_makes_no_call() {
    let mut core = core(&[]);
    let mut one = session(&mut core);
    let puts: String = (0..=MOST_ROWS).map(|row| format!("put . k{row:05} -\n")).collect();
    assert!(texts(&mut core, &mut one, &format!("begin\n{puts}commit .\nclose 1\n")).ends_with("=> closed 1 0\n"));
    for scan in ["scan .", "scanat 1"] {
        let rows = format!("rows {MOST_ROWS}");
        assert_eq!(answers(&mut core, &mut one, &format!("begin\n{scan} - k{MOST_ROWS:05}\n"))[1], rows);
        assert_eq!(answers(&mut core, &mut one, &format!("begin\n{scan} k00001 -\n"))[1], rows);
        let calls = core.ledger.calls;
        let told = answers(&mut core, &mut one, &format!("begin\n{scan} - -\nstats\n"));
        assert!(told[1].ends_with(" 25 answertoolong"), "{told:?}");
        assert_eq!((told.len(), core.ledger.calls), (3, calls + 2));
    }
}

#[test]
fn a_scan_that_would_pass_over_many_keys_makes_no_call() {
    let mut core = core(&[]);
    core.cuts = Cuts::of(1);
    let mut one = session(&mut core);
    answers(&mut core, &mut one, "protect 0\n");
    for command in ["put . %25%02 x\n", "del . %25%02\n"] {
        let lines: String = (0..40).map(|at| command.replace("%02", &format!("{at:02}"))).collect();
        answers(&mut core, &mut one, &format!("begin\n{lines}commit .\n"));
    }
    answers(&mut core, &mut one, "close 2\n");
    for (span, is_made) in [
        ("- -", false),
        ("%25 -", false),
        ("%2500 %2534", false),
        ("%2500 %2533", true),
        ("%2507 -", true),
        ("& '", true),
        ("%2534 %2500", true),
    ] {
        for scan in ["scan .", "scanat 2"] {
            let told = answers(&mut core, &mut one, &format!("begin\n{scan} {span}\n"));
            let wanted = if is_made { "rows 0" } else { " 25 answertoolong" };
            assert!(told[1].ends_with(wanted), "{scan} {span}: {told:?}");
        }
        let wanted = if is_made { "opened" } else { "fault" };
        for open in [format!("openinitial {span} 2"), format!("openinitialevery {span} 2 3")] {
            assert!(answers(&mut core, &mut one, &format!("{open}\n"))[0].starts_with(wanted), "{open}");
        }
    }
    assert!(answers(&mut core, &mut one, "scanat 2 %2\n")[0].ends_with(" 1 wordcount"));
    tidy(&mut core);
    answers(&mut core, &mut one, "release 1\n");
    core.cuts.forget_through(2);
    assert_eq!(answers(&mut core, &mut one, "scanat 2 - -\n"), ["rows 0"]);
}

#[test]
fn the_answers_before_count_too() {
    let mut core = core(&["--max-answer", "65809"]);
    let mut one = session(&mut core);
    answers(&mut core, &mut one, &format!("begin\nput . a {}\ncommit .\nclose 1\n", "v".repeat(40_000)));
    let told = answers(&mut core, &mut one, "scanat 1 - -\nscanat 1 - -\nscanat 1 b -\n");
    assert_eq!((told[0].as_str(), told.last().map(String::as_str)), ("rows 1", Some("rows 0")));
    assert!(told.iter().any(|answer| answer.ends_with(" 25 answertoolong")), "{:?}", told.len());
    assert_eq!(answers(&mut core, &mut one, "scanat 1 - -\n")[0], "rows 1");
}

#[test]
fn a_session_holds_so_many_of_each() {
    let mut core = core(&["--max-held", "2"]);
    let mut one = session(&mut core);
    for (line, made, ended) in [
        ("begin\n", "started", "commit .\n"),
        ("protect 0\n", "protected", "release 1\n"),
        ("open - - 0\n", "opened", "cancel 1\n"),
        ("openinitialevery - - 0 1\n", "opened", "cancel 2\n"),
    ] {
        let first = answers(&mut core, &mut one, line);
        assert!(first[0].starts_with(made), "{first:?}");
        if line != "openinitialevery - - 0 1\n" {
            answers(&mut core, &mut one, line);
        }
        let told = answers(&mut core, &mut one, line);
        assert!(told[0].ends_with(" 68 toomany"), "{line} {told:?}");
        answers(&mut core, &mut one, ended);
    }
    let mut two = session(&mut core);
    assert_eq!(answers(&mut core, &mut two, "begin\n"), ["started"]);
}

#[test]
fn where_memory_is_full_rows_can_be_deleted_and_not_put() {
    let mut core = core(&["--max-memory", "10000"]);
    let mut one = session(&mut core);
    core.watch_memory(10_001);
    let told = answers(&mut core, &mut one, "begin\ndel . a\ncommit .\nbegin\nput . a 1\ncommit .\n");
    assert_eq!(told, ["started", "written", "committed 1", "started", "fault 5 67 full", "aborted"]);
    // The transaction needs room too.
    core.watch_memory(9_000);
    assert_eq!(answers(&mut core, &mut one, "begin\nput . a 1\n"), ["started", "written"]);
}

#[test]
fn lines_want_rights() {
    let mut core = core(&[]);
    let mut owner = session(&mut core);
    answers(&mut core, &mut owner, "open - - 0\nprotect 0\n");
    let mut told = |rights: &[Right]| {
        let mut one = core.seats.take(([127, 0, 0, 1], 1).into(), Who::of("reader", rights)).expect("a seat");
        let lines = "begin\nget . a\nput . a 1\ndel . a\nabort .\nclosehard 0\ncollect 0\ncancel 1\nrelease 1\nstats\n";
        // Each is a message: within one, lines behind a fault are left out.
        let told: Vec<String> =
            lines.lines().flat_map(|line| answers(&mut core, &mut one, &format!("{line}\n"))).collect();
        end(&mut core, &one);
        told.iter().map(|answer| !answer.ends_with("69 noright")).collect::<Vec<_>>()
    };
    let all = |lines: [u8; 10]| lines.map(|line| line == 1).to_vec();
    assert_eq!(told(&[Right::Read]), all([1, 1, 0, 0, 1, 0, 0, 0, 0, 1]));
    assert_eq!(told(&[Right::Write]), all([1, 0, 1, 1, 1, 0, 0, 0, 0, 0]));
    assert_eq!(told(&[Right::Read, Right::Write]), all([1, 1, 1, 1, 1, 0, 0, 0, 0, 1]));
    assert_eq!(told(&[Right::Read, Right::Write, Right::Operate]), all([1; 10]));
    assert_eq!(told(&[Right::Operate]), all([1, 0, 0, 0, 1, 1, 1, 1, 1, 0]));
}

#[test]
fn who_may_only_write_is_told_nothing_that_stands() {
    let mut core = core(&[]);
    let mut one = core.seats.take(([127, 0, 0, 1], 1).into(), Who::of("sensor", &[Right::Write])).expect("a seat");
    assert_eq!(answers(&mut core, &mut one, "begin\nput . a 1\ndel . b\ncommit .\nclose 1\n").len(), 5);
    for line in [
        "get 1 a",
        "scan 1 - -",
        "readat 1 a",
        "scanat 1 - -",
        "protect 1",
        "stats",
        "poll 1 1",
        "open - - 1",
        "openinitial - - 1",
        "openevery - - 1 1",
        "openinitialevery - - 1 1",
        "",
        "nothing",
    ] {
        assert!(answers(&mut core, &mut one, &format!("{line}\n"))[0].ends_with(" 69 noright"), "{line}");
    }
    assert_eq!(core.ledger.refusals.get("noright"), Some(&13));
}

#[test]
fn a_token_for_some_keys_names_those_alone() {
    use crate::gate::Keys;
    let mut core = core(&[]);
    let keys = Keys { lo: b"b".to_vec(), hi: Some(b"d".to_vec()) };
    let who = Who::of("some", &[Right::Read, Right::Write]).with_keys(keys);
    let mut one = core.seats.take(([127, 0, 0, 1], 1).into(), who).expect("a seat");
    answers(&mut core, &mut one, "begin\n");
    for (line, is_allowed) in [
        ("put . b 1", true),
        ("put . c%20 1", true),
        ("put . d 1", false),
        ("put . a 1", false),
        ("get . %01", false),
        ("get . cz", true),
        ("del . d", false),
        ("scan . b d", true),
        ("scan . b c", true),
        ("scan . - -", false),
        ("scan . b -", false),
        ("scan . a c", false),
        ("readat 0 a", false),
        ("scanat 0 b d", true),
        ("scanat 0 - d", false),
        ("open - - 0", false),
        ("openinitial b d 0", true),
        ("openevery b e 0 3", false),
        ("stats", true),
    ] {
        let told = answers(&mut core, &mut one, &format!("{line}\n"));
        assert_eq!(!told[0].ends_with(" 69 noright"), is_allowed, "{line} {told:?}");
    }
    assert!(answers(&mut core, &mut one, "put . a%41 1\n")[0].ends_with(" 9 badbyte"));
}

#[test]
fn who_has_a_feed_or_a_protection_may_end_it() {
    let mut core = core(&[]);
    let mut one = core.seats.take(([127, 0, 0, 1], 1).into(), Who::of("reader", &[Right::Read])).expect("a seat");
    let told = answers(&mut core, &mut one, "open - - 0\nprotect 0\ncancel 1\nrelease 1\ncancel 9\n");
    assert_eq!(told, ["opened 1", "protected 1", "cancelled", "released", "nofeed"]);
}

#[test]
fn the_log_says_who_has_ended_what_is_anothers() {
    let (mut core, said) = crate::testing::core_and_log(&[]);
    let (mut one, mut two) = (session(&mut core), session(&mut core));
    answers(
        &mut core,
        &mut one,
        "begin 5\nbegin 6\nopen - - 0\nopen - - 0\nprotect 0\nprotect 0\ncancel 1\nrelease 1\n",
    );
    let told = answers(&mut core, &mut two, "closehard 1\ncancel 2\nrelease 2\nclosehard 7\ncancel 2\nrelease 2\n");
    assert_eq!(told, ["closed 1 0", "cancelled", "released", "closed 7 2", "feedcancelled", "noprotection"]);
    answers(&mut core, &mut one, "open - - 7\n");
    assert!(answers(&mut core, &mut two, "cancel 3")[0].ends_with(" 7 nonewline"));
    core.log.flush();
    let text = said.text();
    let lines: Vec<&str> = text.lines().filter_map(|line| Some(line.split_once(" info ")?.1)).collect();
    let seat = two.seat;
    assert_eq!(
        lines,
        ["cancel number=2", "release number=2", "closehard number=7"].map(|what| {
            let count = 1 + usize::from(what.starts_with("closehard"));
            format!("{what} seat={seat} by=\"\" of=127.0.0.1:1 count={count}")
        })
    );
}

#[test]
fn a_poll_asks_for_so_many_at_most() {
    let mut core = core(&[]);
    assert!(MOST_POLLED * LONGEST_ROW <= core.limits.max_answer as u64, "the longest find room");
    let mut one = session(&mut core);
    answers(&mut core, &mut one, "open - - 0\n");
    for (line, made) in [
        ("poll 1 18446744073709551615\n", "poll 1 63 => messages 0\n"),
        ("poll 1 9999999\n", "poll 1 63 => messages 0\n"),
        ("poll 1 64\n", "poll 1 63 => messages 0\n"),
        ("poll 1 63\n", "poll 1 63 => messages 0\n"),
        ("poll 1 7\n", "poll 1 7 => messages 0\n"),
    ] {
        assert!(texts(&mut core, &mut one, line).ends_with(made), "{line}");
    }
    for (line, fault) in [
        ("poll 1 9999999 1\n", " 1 wordcount"),
        ("poll 1 9999999", " 7 nonewline"),
        ("poll 01 9999999\n", " 3 number"),
        ("poll 1 18446744073709551616\n", " 3 number"),
    ] {
        assert!(answers(&mut core, &mut one, line)[0].ends_with(fault), "{line}");
    }
}

#[test]
fn where_the_server_ends_no_transaction_begins() {
    let mut core = core(&[]);
    let mut one = session(&mut core);
    answers(&mut core, &mut one, "begin\n");
    core.limits.is_draining = true;
    let told = answers(&mut core, &mut one, "put . a 1\ncommit .\nbegin\nbegin 9\nstats\n");
    assert_eq!(told[..4], ["written", "committed 1", "fault 4 70 draining", "fault 5 70 draining"]);
}

#[test]
fn lines_are_taken_in_turns() {
    let mut core = core(&[]);
    let mut one = session(&mut core);
    let mut lines = Lines::new(b"stats\n".repeat(3));
    // A turn that is over already takes one line.
    let past = Instant::now();
    assert_eq!(lines.turn(&mut core, &mut one, past), Ok(Turn::More));
    assert_eq!(core.ledger.calls, 1);
    assert_eq!(lines.turn(&mut core, &mut one, past + Duration::from_secs(60)), Ok(Turn::Done));
    assert_eq!((core.ledger.calls, lines.answers.len()), (3, 3 * "0 0 stats => stats 0 0 0 0 0\n".len()));
}

#[test]
fn a_session_leaves_nothing() {
    let mut core = core(&[]);
    let mut two = session(&mut core);
    answers(&mut core, &mut two, "begin\nput . a 1\nopen - - 0\nprotect 0\n");
    end(&mut core, &two);
    let ledger = &core.ledger;
    assert_eq!((ledger.undecided.len(), ledger.feeds.len(), ledger.protections.len()), (0, 0, 0));
    assert_eq!((core.shouts, core.seats.count()), (0, 0));
}

#[test]
fn a_session_ends_in_turns() {
    let mut core = core(&[]);
    let mut one = session(&mut core);
    answers(&mut core, &mut one, &"begin\n".repeat(5));
    let past = Instant::now();
    let turns = std::iter::from_fn(|| (core.end(one.seat, past, Length::Long) == Turn::More).then_some(())).count();
    assert_eq!((turns, core.ledger.undecided.len(), core.seats.count()), (6, 0, 0));
}

#[test]
fn no_line_is_of_a_transaction_that_a_request_runs() {
    let mut core = core(&[]);
    // One of them has the seat of the server's own calls.
    let sessions: Vec<Session> = (0..64).map(|at| session_of(&mut core, at / 32)).collect();
    assert_eq!(core.ask(Owner::Server, Command::Begin { ts: 7 }), Ok(Outcome::Started { ts: 7 }));
    for mut one in sessions {
        let told = answers(&mut core, &mut one, "get 7 a\nscan 7 a b\nput 7 a 1\ndel 7 a\ncommit 7\nabort 7\n");
        let refused: Vec<String> = (1..=6).map(|line| format!("fault {line} 64 notyours")).collect();
        assert_eq!(told, refused, "seat {}", one.seat);
        end(&mut core, &one);
    }
    assert_eq!(core.ask(Owner::Server, Command::Commit { ts: 7 }), Ok(Outcome::Committed { ts: 7, rows: 0 }));
}

#[test]
fn behind_a_fault_the_rest_of_the_transaction_is_left_out() {
    let mut core = core(&[]);
    let mut one = session(&mut core);
    for (lines, told) in [
        (
            "begin\nput . k 10 EUR\nput . p yes\nget . k\ncommit .\n",
            &["started", "fault 2 1 wordcount", "fault 3 71 skipped", "fault 4 71 skipped", "aborted"][..],
        ),
        // It may be half of a value, so any faulty line counts.
        ("begin\nput . k two\nlines\ncommit .\n", &["started", "written", "fault 8 2 unknowncommand", "aborted"]),
        ("begin\nput . k\nabort .\n", &["started", "fault 11 1 wordcount", "aborted"]),
        // What comes before `begin` is none of its transaction.
        ("foo\nbegin\nput . k 1\ncommit .\n", &["fault 13 2 unknowncommand", "started", "written", "committed 1"]),
        // A line with a timestamp is taken as it stands.
        (
            "begin 100\nfoo\nput 100 k 2\ncommit 100\n",
            &["started", "fault 18 2 unknowncommand", "written", "committed 1"],
        ),
        // A refusal that isn't of the transaction leaves it.
        ("begin\nreadat 900 k\nput . k 3\ncommit .\n", &["started", "notclosed 0", "written", "committed 1"]),
    ] {
        assert_eq!(answers(&mut core, &mut one, lines), told, "{lines}");
    }
    let undecided = answers(&mut core, &mut one, "begin\nput . k\n");
    assert_eq!(undecided[1], "fault 26 1 wordcount");
    // Whoever writes the next message has seen it.
    assert_eq!(answers(&mut core, &mut one, "put . k 4\ncommit .\n"), ["written", "committed 1"]);
}

#[test]
fn behind_a_refusal_too() {
    let mut core = core(&[]);
    let (mut one, mut two) = (session(&mut core), session(&mut core));
    answers(&mut core, &mut one, "begin\nput . count 5\n");
    let told = answers(&mut core, &mut two, "begin\nget . count\nput . count 6\ncommit .\n");
    assert_eq!(told, ["started", "blocked 1", "fault 3 71 skipped", "aborted"]);
    answers(&mut core, &mut two, "begin\nget . other\n");
    let told = answers(&mut core, &mut one, "put . other 1\nput . count 6\ncommit .\n");
    assert_eq!(told, ["toolate", "fault 4 71 skipped", "ended"]);
    assert_eq!(core.ledger.undecided.len(), 1);
}

#[test]
fn what_was_told_says_whether_all_went_well() {
    let mut core = core(&[]);
    let mut one = session(&mut core);
    let mut told = |text: &str| {
        let mut lines = Lines::new(text.as_bytes().to_vec());
        lines.turn(&mut core, &mut one, Instant::now() + Duration::from_secs(60)).expect("memory");
        (lines.told.has_fault, lines.told.has_refusal)
    };
    assert_eq!(told("begin\nput . a 1\ncommit .\n"), (false, false));
    assert_eq!(told("begin\ncommit 1\nput . a 1\ncommit .\n"), (false, true));
    assert_eq!(told("begin\ncommit .\nget . a\nput . a 1\n"), (false, true));
    assert_eq!(told("begin\nput . a\nput . a 1\ncommit .\n"), (true, false));
}

/// A line of a command and some words, most of which are right for one of them. Now and then a byte is changed.
fn drawn_line(dice: &mut Dice) -> Vec<u8> {
    const COMMANDS: [&str; 23] = [
        "begin",
        "begin",
        "begin",
        "put",
        "put",
        "get",
        "del",
        "scan",
        "commit",
        "commit",
        "abort",
        "close",
        "closehard",
        "readat",
        "scanat",
        "open",
        "openinitialevery",
        "poll",
        "cancel",
        "protect",
        "release",
        "collect",
        "stats",
    ];
    const WORDS: [&str; 16] =
        [".", ".", ".", "a", "a", "b", "c", "-", "0", "1", "2", "40", "%20", "%41", "", "9223372036854775808"];
    let mut line = dice.of(&COMMANDS).to_string();
    (0..dice.below(5)).for_each(|_| line = format!("{line} {}", dice.of(&WORDS)));
    let mut line = line.into_bytes();
    if dice.one_in(8) {
        let at = dice.below(line.len() as u64) as usize;
        line[at] = dice.below(256) as u8;
    }
    line.push(b'\n');
    line
}

/// The events of a text, each whole, and how many events and faults it has. Each fault names its own line.
fn events_and_faults(text: &str, first_line: u64) -> (Vec<&str>, u64) {
    let (mut events, mut line, mut rest) = (Vec::new(), first_line, text);
    while !rest.is_empty() {
        let (head, _) = rest.split_once('\n').expect("a whole line");
        let counted = head.rsplit_once(" => ").and_then(|(_, answer)| answer.rsplit_once(' '));
        let more = match counted {
            Some(("rows" | "messages", count)) => count.parse().expect("a count"),
            _ => 0,
        };
        let end = rest.split_inclusive('\n').take(1 + more).map(str::len).sum();
        match head.starts_with("fault ") {
            true => assert!(head.starts_with(&format!("fault {line} ")), "{head} is of line {line}"),
            false => events.push(&rest[..end]),
        }
        (line, rest) = (line + 1, &rest[end..]);
    }
    (events, line - first_line)
}

/// Each is answered by one event of the transcript or by one fault, in its order, in printable ASCII.
#[test]
fn any_bytes_are_answered_line_by_line() {
    let mut dice = Dice::new(51);
    let mut core = core(&["--history", "0", "--max-held", "3", "--max-lag", "50", "--ahead", "50"]);
    let mut one = session(&mut core);
    dice.each(|dice| {
        let mut data: Vec<u8> = (0..dice.below(12)).flat_map(|_| drawn_line(dice)).collect();
        data.truncate(data.len() - dice.below(2).min(data.len() as u64) as usize);
        let wanted = data.split_inclusive(|&byte| byte == b'\n').count() as u64;
        let (first_line, next) = (one.lines + 1, core.transcript.next());
        let mut lines = Lines::new(data);
        let far = Instant::now() + Duration::from_secs(60);
        assert_eq!(lines.turn(&mut core, &mut one, far), Ok(Turn::Done));
        assert!(lines.answers.iter().all(|byte| matches!(byte, b'\n' | b' '..=b'~')), "{:?}", lines.answers);
        let text = String::from_utf8(lines.answers).expect("ASCII");
        let (events, count) = events_and_faults(&text, first_line);
        assert_eq!((count, one.lines + 1 - first_line), (wanted, wanted), "{text}");
        let (kept, _) = core.transcript.piece(next, u64::MAX, usize::MAX).expect("they are kept");
        assert_eq!(String::from_utf8(kept).as_deref(), Ok(events.concat().as_str()));
        core.settle(Instant::now());
        if dice.one_in(20) {
            end(&mut core, &one);
            one = session(&mut core);
            tidy(&mut core);
        }
    });
    assert_eq!(core.shouts, 0);
}
