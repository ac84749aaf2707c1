//! The ledger and the server's own work beside the database itself, which is the judge: `stats`, `close` and `collect`
//! answer what the ledger has foretold.

use super::*;
use crate::gate::{Right, Who};
use crate::seats::Session;
use crate::testing::{answers, core, core_and_log, end, say, server, session, tidy, Dice};
use ripsawbean::{Database, Span};

const COMMANDS: [&str; 22] = [
    "begin",
    "begin",
    "begin",
    "begin FREE",
    "put TS KEY x",
    "put . KEY y",
    "del TS KEY",
    "get TS KEY",
    "get . KEY",
    "scan TS - -",
    "commit TS",
    "commit .",
    "abort TS",
    "close AT",
    "closehard AT",
    "open - - AT",
    "openinitialevery a d AT 3",
    "poll NUMBER COUNT",
    "cancel NUMBER",
    "protect AT",
    "release NUMBER",
    "collect AT",
];

/// A line whose numbers are often those of the ledger.
fn line(dice: &mut Dice, core: &Core) -> String {
    let undecided: Vec<u64> = core.ledger.undecided.keys().copied().collect();
    let free = 1 + dice.below(core.ledger.greatest + 4);
    let ts = if undecided.is_empty() || dice.one_in(5) { free } else { *dice.of(&undecided) };
    let key = *dice.of(&["a", "b", "c", "d", "e", "f"]);
    let words = [
        ("FREE", free.to_string()),
        ("TS", ts.to_string()),
        ("KEY", key.to_string()),
        ("AT", dice.below(core.ledger.closed + 3).to_string()),
        ("NUMBER", (1 + dice.below(7)).to_string()),
        ("COUNT", dice.below(4).to_string()),
    ];
    let mut line = dice.of(&COMMANDS).to_string();
    for (name, word) in words {
        line = line.replace(name, &word);
    }
    line + "\n"
}

/// `stats` is answered by what the ledger knows.
fn check(core: &mut Core, session: &mut Session) {
    let told = answers(core, session, "stats\n").remove(0);
    let numbers: Vec<u64> = told.split(' ').skip(2).map(|word| word.parse().expect("a number")).collect();
    let ledger = &core.ledger;
    let known = [ledger.undecided.len() as u64, ledger.feeds.len() as u64, ledger.closed, ledger.horizon];
    assert_eq!(numbers, known, "{told}");
}

#[test]
fn random_lines_of_several_sessions() {
    for seed in 0..60 {
        let mut dice = Dice::new(seed);
        let mut core = core(&["--history", "0", "--ahead", "50"]);
        let mut sessions: Vec<Session> = (0..4).map(|_| session(&mut core)).collect();
        for _ in 0..300 {
            let text = line(&mut dice, &core);
            let at = dice.below(4) as usize;
            answers(&mut core, &mut sessions[at], &text);
            if dice.one_in(10) {
                core.close(Instant::now()); // demands what the ledger foretells
            }
            if dice.one_in(20) {
                tidy(&mut core);
            }
            if dice.one_in(100) {
                end(&mut core, &sessions[at]);
                sessions[at] = session(&mut core);
            }
            check(&mut core, &mut sessions[at]);
        }
        assert_eq!(core.shouts, 0, "seed {seed}");
        assert_eq!(core.transcript.next(), core.ledger.calls, "each call is an event of the transcript");
    }
}

#[test]
fn an_answer_that_is_not_foretold_is_shouted() {
    let (mut core, said) = core_and_log(&[]);
    let mut one = session(&mut core);
    answers(&mut core, &mut one, "begin\n");
    core.ledger.undecided.clear();
    core.close(Instant::now());
    assert_eq!(core.shouts, 1);
    core.log.flush();
    assert!(said.text().contains("close 1 => closed 0 0, and not closed 1 0"), "{}", said.text());
}

#[test]
fn what_waits_to_be_closed_waits_since_its_commit_or_since_closed_moved() {
    let mut core = core(&[]);
    let [mut one, mut two, mut three] = [0; 3].map(|_| session(&mut core));
    say(&mut core, &mut one, "begin\n");
    say(&mut core, &mut two, "begin\n");
    assert_eq!(core.closing.waits_since(), None);
    say(&mut core, &mut three, "begin\nput . a 1\ncommit .\n");
    let since = core.closing.waits_since();
    assert!(since.is_some());
    say(&mut core, &mut three, "begin\nput . a 2\ncommit .\n");
    assert_eq!(core.closing.waits_since(), since);
    say(&mut core, &mut one, "abort .\n");
    assert!(core.closing.waits_since() > since, "closed has moved");
    say(&mut core, &mut two, "abort .\n");
    assert_eq!((core.closing.waits_since(), core.ledger.closed), (None, 4));
}

#[test]
fn what_lags_too_far_is_let_go() {
    let mut core = core(&["--max-lag", "3", "--history", "0"]);
    let mut one = session(&mut core);
    answers(&mut core, &mut one, "open - - 0\nprotect 0\n");
    for (rows, left) in [(3, 1), (1, 0)] {
        let puts: String = (0..rows).map(|row| format!("put . k{row} v\n")).collect();
        answers(&mut core, &mut one, &format!("begin\n{puts}commit .\n"));
        tidy(&mut core);
        assert_eq!((core.ledger.feeds.len(), core.ledger.protections.len()), (left, left));
    }
    assert_eq!(answers(&mut core, &mut one, "poll 1 9\n"), ["feedcancelled"]);
}

#[test]
fn what_lags_in_bytes_is_let_go() {
    let mut core = core(&["--max-lag-bytes", "1000"]);
    let mut one = session(&mut core);
    answers(&mut core, &mut one, "protect 0\n");
    for (size, left) in [(100, 1), (1000, 0)] {
        answers(&mut core, &mut one, &format!("begin\nput . k {}\ncommit .\n", "x".repeat(size)));
        tidy(&mut core);
        assert_eq!(core.ledger.protections.len(), left);
    }
}

#[test]
fn while_memory_is_full_those_that_hold_an_eighth_of_it_are_let_go() {
    for (size, resident, left) in [(2000, 8000, 1), (500, 8001, 1), (2000, 8001, 0)] {
        let mut core = core(&["--max-memory", "8000"]);
        let mut one = session(&mut core);
        let value = "x".repeat(size);
        answers(&mut core, &mut one, &format!("open - - 0\nprotect 0\nbegin\nput . k {value}\ncommit .\n"));
        core.watch_memory(resident);
        tidy(&mut core);
        assert_eq!((core.ledger.feeds.len(), core.ledger.protections.len()), (left, left), "{size} {resident}");
    }
}

/// Says lines of a message of its own again and again, until one of them is answered `full`: how many were not.
fn until_full(core: &mut Core, one: &mut Session, line: impl Fn(usize) -> String) -> usize {
    let mut count = 0;
    while answers(core, one, &line(count)).iter().all(|answer| !answer.ends_with(" 67 full")) {
        count += 1;
        assert!(count < 100_000, "it goes on and on");
    }
    count
}

#[test]
fn while_memory_is_full_transactions_read_as_far_as_others_are_closed() {
    let mut core = core(&["--max-memory", "1000"]);
    let (mut old, mut one) = (session(&mut core), session(&mut core));
    let read = |at: usize| format!("begin\nget . absent/{at:06}\nscan . span/{at:06} span/{at:06}0\ncommit .\n");
    answers(&mut core, &mut old, "begin\n");
    (0..1_000).for_each(|at| drop(say(&mut core, &mut one, &read(at))));
    core.watch_memory(1001);
    // What there was before it was full counts no more.
    let count = until_full(&mut core, &mut one, read);
    assert!((2_000..20_000).contains(&count), "{count} messages");
    for (line, told) in [
        ("begin\n", "fault"),
        ("begin 1000000\n", "fault"),
        ("readat 0 a\n", "none"),
        ("scanat 0 - -\n", "rows"),
        ("stats\n", "stats"),
        ("protect 0\n", "protected"),
    ] {
        let answer = answers(&mut core, &mut one, line).concat();
        assert!(answer.starts_with(told), "{line} {answer}");
    }
    assert_eq!(say(&mut core, &mut old, "get . a\n"), ["fault 2 67 full"]);
    assert_eq!(say(&mut core, &mut old, "abort 1\n"), ["aborted"]);
    assert_eq!(say(&mut core, &mut one, "begin\nget . a\ncommit .\n"), ["started", "none", "committed 0"]);
    assert_eq!(core.shouts, 0);
}

#[test]
fn while_memory_is_full_keys_are_deleted_as_far_as_others_are_collected() {
    let mut core = core(&["--max-memory", "64000000", "--history", "0"]);
    let (mut reader, mut one) = (session(&mut core), session(&mut core));
    answers(&mut core, &mut reader, "protect 0\n");
    core.watch_memory(64_000_001);
    let delete = |at: usize| format!("begin\ndel . gone/{at}\ncommit .\n");
    let count = until_full(&mut core, &mut one, delete);
    assert!((5_000..20_000).contains(&count), "{count} messages");
    assert_eq!(say(&mut core, &mut one, "get . gone/0\nabort .\n").len(), 2);
    assert_eq!(say(&mut core, &mut one, "begin\nget . gone/0\nabort .\n"), ["started", "none", "aborted"]);
    // A reader in their way is let go where it would hold an eighth otherwise.
    tidy(&mut core);
    assert_eq!((core.ledger.protections.len(), core.ledger.horizon), (0, core.ledger.closed));
    assert_eq!(say(&mut core, &mut one, &delete(0)), ["started", "written", "committed 1"]);
    assert_eq!(core.shouts, 0);
}

#[test]
fn while_memory_is_full_sessions_hold_as_much_as_others_have_ended() {
    let mut core = core(&["--max-memory", "1000", "--max-held", "100000"]);
    let (mut one, mut two) = (session(&mut core), session(&mut core));
    say(&mut core, &mut one, &"open - - 0\n".repeat(1_000));
    core.watch_memory(1001);
    // What there was before it was full counts no more.
    let count = until_full(&mut core, &mut two, |_| "open - - 0\nprotect 0\n".into());
    assert!((1_000..10_000).contains(&count), "{count} messages");
    for (line, told) in [
        ("open a b 0\n", "fault"),
        ("openinitial - - 0\n", "fault"),
        ("openevery - - 0 7\n", "fault"),
        ("openinitialevery - - 0 7\n", "fault"),
        ("protect 0\n", "fault"),
        ("poll 1 7\n", "messages"),
        ("begin\n", "fault"),
        ("readat 0 a\n", "none"),
    ] {
        let answer = answers(&mut core, &mut one, line).concat();
        assert!(answer.starts_with(told), "{line} {answer}");
    }
    // A stream's feed and a name's protection have bounds of their own.
    for command in [Command::Open { span: Span::ALL, cursor: 0 }, Command::Protect { t: 0 }] {
        assert!(matches!(core.ask(Owner::Server, command), Ok(Outcome::Opened { .. } | Outcome::Protected { .. })));
    }
    end(&mut core, &two);
    let told = say(&mut core, &mut one, "begin\ncommit .\nopen - - 0\nprotect 0\n");
    assert!(told.iter().all(|answer| !answer.starts_with("fault")), "{told:?}");
    end(&mut core, &one);
    assert_eq!(core.ledger.growth.now().held, 0);
    assert_eq!(core.shouts, 0);
}

#[test]
fn while_memory_is_full_a_transaction_that_holds_others_up_is_aborted_soon() {
    let mut core = core(&["--max-memory", "1000"]);
    let (mut old, mut one) = (session(&mut core), session(&mut core));
    answers(&mut core, &mut old, "begin\n");
    std::thread::sleep(Duration::from_millis(1050));
    core.watch_memory(1001);
    tidy(&mut core);
    assert_eq!(core.ledger.undecided.len(), 1);
    until_full(&mut core, &mut one, |at| format!("begin\nget . {at}\ncommit .\n"));
    answers(&mut core, &mut one, "abort .\n");
    tidy(&mut core);
    assert_eq!(core.ledger.undecided.len(), 0);
    core.settle(Instant::now());
    assert_eq!(say(&mut core, &mut one, "begin\n"), ["started"]);
}

#[test]
fn what_is_aborted_or_written_again_gives_its_room_back() {
    let mut core = core(&["--max-memory", "1000"]);
    let mut one = session(&mut core);
    for lines in ["put . a 1\nput . a 2\nput . a 3\nabort .\n", "put . a 1\nput . a 2\nput . a 3\ncommit .\n"] {
        let before = core.ledger.written - core.ledger.taken_back;
        say(&mut core, &mut one, &format!("begin\n{lines}"));
        let stays = core.ledger.written - core.ledger.taken_back - before;
        assert_eq!(stays, if lines.contains("commit") { ROW + 9 } else { 0 });
    }
}

#[test]
fn an_old_transaction_is_aborted_by_its_own_seat_and_a_younger_one_stays() {
    let mut core = core(&["--max-age", "0.2"]);
    let (mut one, mut two) = (session(&mut core), session(&mut core));
    answers(&mut core, &mut one, "begin\nput . a 1\n");
    std::thread::sleep(Duration::from_millis(250));
    answers(&mut core, &mut two, "begin\nput . b 1\n");
    tidy(&mut core);
    assert_eq!(answers(&mut core, &mut one, "commit .\n"), ["ended"]);
    assert_eq!(answers(&mut core, &mut two, "commit .\n"), ["committed 1"]);
    assert_eq!(core.shouts, 0);
}

#[test]
fn transactions_of_a_session_that_is_silent_for_as_long_as_it_may_are_aborted() {
    let mut core = core(&[]);
    let (mut one, mut two) = (session(&mut core), session(&mut core));
    for seat in [one.seat, two.seat] {
        core.seats.taken_mut(seat).expect("it is taken").idle = Some(Duration::from_millis(200));
    }
    answers(&mut core, &mut one, "begin 5\nbegin 6\n");
    answers(&mut core, &mut two, "begin 7\n");
    std::thread::sleep(Duration::from_millis(250));
    core.seats.hears(two.seat);
    // A turn that is over already aborts one.
    assert_eq!(core.abort_idle(Instant::now()), Turn::More);
    assert_eq!(core.ledger.undecided.keys().copied().collect::<Vec<_>>(), [6, 7]);
    tidy(&mut core);
    assert_eq!(answers(&mut core, &mut one, "commit 5\ncommit 6\n"), ["ended", "ended"]);
    assert_eq!(answers(&mut core, &mut two, "commit 7\n"), ["committed 0"]);
    assert_eq!((core.shouts, core.seats.count()), (0, 2));
}

#[test]
fn the_horizon_moves_once_what_held_it_is_gone_though_nothing_more_is_closed() {
    let mut core = core(&["--history", "0"]);
    let mut one = session(&mut core);
    assert_eq!(
        answers(&mut core, &mut one, "protect 0\nbegin 7\ncommit 7\n"),
        ["protected 1", "started", "committed 0"]
    );
    tidy(&mut core);
    tidy(&mut core);
    assert_eq!((core.ledger.closed, core.ledger.horizon), (7, 0));
    assert_eq!(answers(&mut core, &mut one, "release 1\n"), ["released"]);
    tidy(&mut core);
    assert_eq!(core.ledger.horizon, 7);
}

#[test]
fn much_is_collected_in_steps() {
    let mut core = core(&["--history", "0"]);
    let mut one = session(&mut core);
    answers(&mut core, &mut one, "protect 0\n");
    for _ in 0..5 {
        let puts: String = (0..2000).map(|row| format!("put . k{row} v\n")).collect();
        answers(&mut core, &mut one, &format!("begin\n{puts}commit .\n"));
        core.close(Instant::now());
    }
    answers(&mut core, &mut one, "release 1\n");
    let past = Instant::now();
    let mut horizons = Vec::new();
    while core.collect(past) == Turn::More {
        horizons.push(core.ledger.horizon);
    }
    // Each step has 5,000 rows at most: two transactions.
    assert_eq!(horizons, [2, 4, 5]);
    assert_eq!((core.shouts, core.ledger.collected), (0, 4 * 2000));
}

#[test]
fn closing_is_done_at_once_or_after_the_pause() {
    for (pause, closed) in [("0", 1), ("100", 0)] {
        let mut core = core(&["--close-every", pause]);
        let mut one = session(&mut core);
        answers(&mut core, &mut one, "begin\nput . a 1\ncommit .\n");
        let settled = core.settle(Instant::now());
        assert_eq!((core.ledger.closed, settled.moved, settled.is_due), (closed, closed == 1, closed == 0));
        // The timer is told once.
        assert!(!core.settle(Instant::now()).is_due);
        core.settle(Instant::now() + Duration::from_secs(101));
        assert_eq!(core.ledger.closed, 1);
        assert_eq!(core.next_close(), None);
    }
}

#[test]
fn closing_waits_for_streams_that_are_behind_and_not_for_slow_readers() {
    let mut core = core(&[]);
    let mut one = session(&mut core);
    for _ in 0..2 {
        core.ask(Owner::Server, Command::OpenInitial { span: ripsawbean::Span::ALL, cursor: 0 }).expect("a call");
    }
    let mut commit = |core: &mut Core| {
        answers(core, &mut one, "begin\nput . a 1\ncommit .\n");
        core.settle(Instant::now());
        core.ledger.closed
    };
    assert_eq!(commit(&mut core), 1);
    assert_eq!((commit(&mut core), core.ledger.behind), (1, 2));
    let mut out = Vec::new();
    core.poll(1, crate::pace::PLAIN, &mut out).expect("a poll");
    core.settle(Instant::now());
    assert_eq!((core.ledger.closed, core.ledger.behind), (1, 1));
    core.ledger.set_waits(2, true);
    core.settle(Instant::now());
    assert_eq!((core.ledger.closed, core.ledger.behind), (2, 1));
    assert_eq!(commit(&mut core), 2);
    // A stream that doesn't poll is waited for 20 ms at most.
    core.settle(Instant::now() + LONGEST_WAIT);
    assert_eq!(core.ledger.closed, 3);
    core.stop_feed(1, Reason::Gone);
    assert_eq!(core.ledger.behind, 0);
    assert_eq!(core.ledger.take_end(1).map(|end| end.reason), Some(Reason::Gone));
    assert_eq!(core.ledger.take_end(1), None);
}

#[test]
fn what_holds_the_horizon_is_the_lowest() {
    use crate::ledger::Holder;
    let mut core = core(&[]);
    let mut one = session(&mut core);
    answers(&mut core, &mut one, "begin 5\ncommit 5\nclose 5\n");
    assert_eq!(core.ledger.limit(), (5, Holder::Closed));
    answers(&mut core, &mut one, "protect 4\nopen - - 3\nprotect 2\n");
    assert_eq!(core.ledger.limit(), (2, Holder::Protection(2)));
    answers(&mut core, &mut one, "release 2\n");
    assert_eq!(core.ledger.limit(), (3, Holder::Feed(1)));
    answers(&mut core, &mut one, "poll 1 9\n");
    assert_eq!(core.ledger.limit(), (4, Holder::Protection(1)));
}

/// The transcript is the script with its answers: made once more it gives the same.
#[test]
fn the_transcript_is_all_that_the_database_did() {
    let mut core = core(&["--history", "0"]);
    let mut one = session(&mut core);
    let mut dice = Dice::new(7);
    for _ in 0..500 {
        let text = line(&mut dice, &core);
        answers(&mut core, &mut one, &text);
        core.settle(Instant::now());
        if dice.one_in(30) {
            tidy(&mut core);
        }
    }
    let (text, next) = core.transcript.piece(0, u64::MAX, usize::MAX).expect("all is kept");
    assert_eq!(next, core.transcript.next());
    let mut other = Database::open(1024).expect("it opens");
    let mut rest = std::str::from_utf8(&text).expect("text");
    while !rest.is_empty() {
        let first = rest.split_once('\n').map_or(rest, |(line, _)| line);
        let (line, _) = first.rsplit_once(" => ").expect("an event");
        let (_, line) = line.split_once(' ').expect("a position");
        let again = other.call(format!("{line}\n")).expect("a call").text();
        assert_eq!(again, &rest[..again.len()]);
        rest = &rest[again.len()..];
    }
}

#[tokio::test(start_paused = true)]
async fn the_work_of_a_second_does_not_wait_for_the_lane() {
    let server = server(&["--keep", "10", "--max-age", "0.01"]);
    server.door.run(|core| {
        let mut one = session(core);
        answers(core, &mut one, &format!("begin\n{}", "put . a 1\n".repeat(5001)));
    });
    std::thread::sleep(Duration::from_millis(20));
    let _lane = server.door.keep_lane().await;
    let tidied = tokio::time::timeout(Duration::from_secs(60), super::tidy(&server.door, None));
    tidied.await.expect("it waits for no one");
    assert_eq!(server.door.run(|core| (core.ledger.undecided.len(), core.shouts)), (0, 0));
}

#[test]
fn who_may_only_read_holds_up_commits_for_half_a_second() {
    let mut core = core(&[]);
    let mut take =
        |rights: &[Right]| core.seats.take(([192, 0, 2, 1], 1).into(), Who::of("one", rights)).expect("a seat");
    let ([mut reader, mut other], mut writer) =
        ([0; 2].map(|_| take(&[Right::Read])), take(&[Right::Read, Right::Write]));
    say(&mut core, &mut reader, "begin\n");
    let later = |core: &mut Core, age| {
        for _ in 0..2 {
            core.settle(Instant::now() + age);
        }
        (core.ledger.undecided.keys().copied().collect::<Vec<u64>>(), core.ledger.closed)
    };
    // Nobody waits for it.
    assert_eq!(later(&mut core, 10 * READERS_AGE), (vec![1], 0));
    say(&mut core, &mut other, "begin\n");
    say(&mut core, &mut writer, "begin\nput . a 1\ncommit .\nbegin\n");
    assert_eq!(later(&mut core, READERS_AGE / 2), (vec![1, 2, 4], 0));
    assert!(core.next_close().is_some_and(|at| at <= Instant::now() + READERS_AGE));
    // The next one of its own doesn't hold them up anew, and a writer's may be older.
    assert_eq!(later(&mut core, READERS_AGE), (vec![4], 3));
    say(&mut core, &mut other, "begin\nput . b 1\n");
    assert_eq!((later(&mut core, 10 * READERS_AGE), core.next_close()), ((vec![4, 5], 3), None));
    assert_eq!(core.shouts, 0);
}
