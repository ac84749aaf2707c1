//! Each growth of the library's memory refused in turn, over a library whose growths can be refused: `server/unit` runs
//! this by itself. What comes to nothing has changed nothing and leaves nothing, and what is told is right.

use super::plan::Plan;
use super::run::{End, Pace, Stop};
use crate::before::with_before;
use crate::core::Core;
use crate::outcome::Outcome;
use crate::seats::Owner;
use crate::testing::{core, run, say, session, tidy};
use ripsawbean::refusing::{refuse_after, refuse_none};
use ripsawbean::{Command, Refusal, Room, Span};
use std::time::{Duration, Instant};

const BODY: &str = r#"{"if":[{"key":"a","absent":true},{"span":["k",null],"unchanged":"1"}],
    "then":[{"put":"a","value":"1"},{"get":"a"},{"del":"k000"},{"scan":["a","l"],"limit":5},{"get":"k001"}]}"#;

fn with_rows() -> Core {
    let mut core = core(&["--max-age", "0.01", "--history", "0"]);
    let mut one = session(&mut core);
    let puts: String = (0..50).map(|row| format!("put . k{row:03} {}\n", "v".repeat(200))).collect();
    say(&mut core, &mut one, &format!("begin\n{puts}commit .\n"));
    core
}

/// What stands in the database once all that could be left is ended.
fn left(core: &mut Core) -> usize {
    std::thread::sleep(Duration::from_millis(15));
    (0..2).for_each(|_| tidy(core));
    core.settle(Instant::now());
    assert_eq!(core.ledger.undecided.len(), 0);
    let at = core.ledger.closed;
    core.page(Span::ALL, at, 1000).expect("a page").rows.len()
}

/// Does some work with each growth refused in turn, until none is: how often it came to nothing.
fn each(work: impl Fn(&mut Core) -> bool) -> usize {
    let mut count = 0;
    for before in 0.. {
        let mut core = with_rows();
        refuse_after(before);
        let is_done = work(&mut core);
        let was_refused = refuse_none();
        assert!(is_done || was_refused, "it comes to nothing with all memory");
        count += usize::from(!is_done);
        // What is done has put a row and deleted one.
        assert_eq!(left(&mut core), 50, "{before}");
        assert_eq!(core.shouts, 0, "{before}");
        if !was_refused {
            break;
        }
    }
    count
}

fn a_transaction(core: &mut Core) -> bool {
    match run(core, &Plan::of(BODY.as_bytes()).expect("a plan"), Pace::Turns, None) {
        Ok(End::Committed(done)) => {
            assert_eq!((done.results.len(), done.written), (5, 2));
            true
        }
        Err(Stop::NoMemory) => false,
        other => panic!("{other:?}"),
    }
}

fn a_page(core: &mut Core) -> bool {
    match core.page(Span::ALL, 1, 20) {
        Ok(page) => {
            assert_eq!((page.rows.len(), page.next), (20, Some(b"k020".to_vec())));
            true
        }
        Err(super::pages::Unread::NoMemory) => false,
        other => panic!("{other:?}"),
    }
}

fn a_hold(core: &mut Core) -> bool {
    match core.hold_snapshot(1, Duration::ZERO) {
        Ok(()) => true,
        Err(refusal) => {
            assert_eq!((refusal.status, refusal.error), (503, "nomemory"));
            false
        }
    }
}

/// A poll that was told is told with the values before, or its stream is cut.
fn a_poll(core: &mut Core) -> bool {
    let Ok(Outcome::Opened { feed, .. }) = core.ask(Owner::Server, Command::Open { span: Span::ALL, cursor: 0 }) else {
        return false;
    };
    let mut text = Vec::new();
    let is_done = match core.poll(feed, Room { rows: 100, bytes: u64::MAX }, &mut text) {
        Ok(Outcome::Messages { count, .. }) => match with_before(core, &text, None) {
            Ok(text) => {
                assert_eq!((text.split(|&byte| byte == b'\n').count(), count), (52, 51));
                true
            }
            Err(_) => false,
        },
        Ok(Outcome::Refused(Refusal::NoMemory)) | Err(_) => false,
        other => panic!("{other:?}"),
    };
    let _ = core.ask(Owner::Server, Command::Cancel { feed });
    is_done
}

/// A stream whose poll finds no memory isn't at its end: it polls again, and tells all. Or it is cut.
fn a_stream(core: &mut Core) -> bool {
    let Ok(Outcome::Opened { feed, .. }) = core.ask(Owner::Server, Command::Open { span: Span::ALL, cursor: 0 }) else {
        return false;
    };
    let is_done = crate::stream::tests::is_told_at_once(core, feed, 51);
    let _ = core.ask(Owner::Server, Command::Cancel { feed });
    is_done
}

#[test]
fn each_growth_is_refused_in_turn() {
    for (name, work) in [
        ("transaction", a_transaction as fn(&mut Core) -> bool),
        ("page", a_page),
        ("hold", a_hold),
        ("poll", a_poll),
        ("stream", a_stream),
    ] {
        let count = each(work);
        println!("{name}: refused {count} times");
        assert!(count > 0, "{name}");
    }
}
