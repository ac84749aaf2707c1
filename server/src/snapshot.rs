//! The rows that a stream begins with, in pages, where the database would pass over too many keys in one call.
//!
//! A feed of the database that begins with a snapshot finds its next rows in one call, however many deleted keys lie
//! before them. Where those are many, a stream's feed begins behind the snapshot, which it holds. Its rows are told before,
//! in turns.
//!
//! ```text
//! openinitial a z 7                    few keys are passed over
//!
//! open a z 7                           many are
//! scanat 7 a f, scanat 7 f z           the rows of both are told as those of timestamp 7
//! {"resolved":"7"}                     and these were all
//! ```
//!
//! 1. What is told is what the feed of `openinitial` tells, in the same order, and one resolved message more.
//! 2. As long as the feed lives, no row of the snapshot is collected.

use crate::api::pages::{Rows, Unread};
use crate::core::Core;
use crate::cuts::MOST;
use crate::door::TURN;
use ripsawbean::{Room, Span};
use std::io::Write;
use std::time::Instant;

/// What is still to be told.
#[derive(Debug, PartialEq)]
pub struct Snapshot {
    at: u64,
    lo: Vec<u8>,
    hi: Option<Vec<u8>>,
}

/// How much one page has told.
#[derive(Debug, PartialEq)]
pub struct Page {
    pub count: u64,
    pub is_last: bool,
}

impl Snapshot {
    /// The one at closed, where a call would pass over more keys of the span than it may.
    pub fn in_pages(core: &Core, span: Span<'_>) -> Option<Snapshot> {
        let at = core.ledger.closed;
        let is_far = core.cuts.passed(span.lo, span.hi, at).nth(MOST).is_some();
        is_far.then(|| Snapshot { at, lo: span.lo.to_vec(), hi: span.hi.map(<[u8]>::to_vec) })
    }

    /// Puts the messages of the next page behind `out`, a line of JSON each. It may have none.
    pub fn tell(&mut self, core: &mut Core, room: Room, out: &mut Vec<u8>) -> Result<Page, Unread> {
        self.tell_until(core, room, Instant::now() + TURN, out)
    }

    fn tell_until(&mut self, core: &mut Core, room: Room, until: Instant, out: &mut Vec<u8>) -> Result<Page, Unread> {
        let span = Span { lo: &self.lo, hi: self.hi.as_deref() };
        let page = core.page_until(span, self.at, room, until)?;
        tell_rows(&page.rows, self.at, out);
        let count = page.rows.len() as u64;
        Ok(match page.next {
            Some(next) => {
                self.lo = next;
                Page { count, is_last: false }
            }
            None => {
                // Writing to a vector can't fail.
                let _ = writeln!(out, "{{\"resolved\":\"{}\"}}", self.at);
                Page { count: count + 1, is_last: true }
            }
        })
    }
}

/// Rows as a feed tells them.
fn tell_rows(rows: &Rows, at: u64, out: &mut Vec<u8>) {
    for (key, value) in rows {
        let [key, value] = [key, value].map(base64::encode);
        // Writing to a vector can't fail.
        let _ = writeln!(out, "{{\"after\":\"{value}\",\"key\":\"{key}\",\"updated\":\"{at}\"}}");
    }
}

#[cfg(test)]
mod tests {
    use super::*;
    use crate::cuts::Cuts;
    use crate::outcome::Outcome;
    use crate::pace::PLAIN;
    use crate::seats::Owner;
    use crate::testing::{core, say, session, Dice};
    use ripsawbean::Command;

    /// What a feed of the database tells, to its first resolved message.
    fn told_by_a_feed(core: &mut Core, span: Span<'_>) -> String {
        let (mut text, cursor) = (Vec::new(), core.ledger.closed);
        match core.ask(Owner::Server, Command::OpenInitial { span, cursor }) {
            Ok(Outcome::Opened { feed, .. }) => {
                core.poll(feed, Room { rows: 1 << 20, bytes: u64::MAX }, &mut text).expect("a poll");
                core.end_stream(feed);
            }
            other => panic!("{other:?}"),
        }
        String::from_utf8(text).expect("text")
    }

    #[test]
    fn it_tells_what_a_feed_of_the_database_tells() {
        let (mut core, mut dice) = (core(&["--keep", "10"]), Dice::new(7));
        core.cuts = Cuts::of(2);
        let mut one = session(&mut core);
        say(&mut core, &mut one, "protect 0\n");
        for _ in 0..40 {
            let write = |dice: &mut Dice| match dice.below(3) {
                0 => format!("put . k{:03} {}\n", dice.below(400), ["-", "v", "%00%FF"][dice.below(3) as usize]),
                _ => format!("del . k{:03}\n", dice.below(400)),
            };
            let lines: String = (0..40).map(|_| write(&mut dice)).collect();
            say(&mut core, &mut one, &format!("begin\n{lines}commit .\n"));
        }
        let mut pages = 0;
        for _ in 0..100 {
            let (lo, hi) = (format!("k{:03}", dice.below(400)), format!("k{:03}", dice.below(400)));
            let span = Span { lo: lo.as_bytes(), hi: Some(hi.as_bytes()).filter(|_| !dice.one_in(4)) };
            let Some(mut snapshot) = Snapshot::in_pages(&core, span) else { continue };
            let expected = told_by_a_feed(&mut core, span);
            let (mut out, mut count) = (Vec::new(), 0);
            loop {
                let page = snapshot.tell_until(&mut core, PLAIN, Instant::now(), &mut out).expect("a page");
                (pages, count) = (pages + 1, count + page.count);
                if page.is_last {
                    break;
                }
            }
            assert_eq!(String::from_utf8(out).expect("text"), expected, "{lo} {hi}");
            assert_eq!(count, expected.lines().count() as u64);
        }
        assert!(pages > 300 && core.shouts == 0, "{pages} pages");
    }

    #[test]
    fn where_few_keys_are_passed_over_there_is_none() {
        let mut core = core(&[]);
        core.cuts = Cuts::of(1);
        let mut one = session(&mut core);
        say(&mut core, &mut one, "protect 0\n");
        let puts: String = (0..MOST + 10).map(|at| format!("put . k{at:03} 1\n")).collect();
        say(&mut core, &mut one, &format!("begin\n{puts}commit .\n"));
        assert_eq!(Snapshot::in_pages(&core, Span::ALL), None);
        let dels = puts.replace("put", "del").replace(" 1\n", "\n");
        say(&mut core, &mut one, &format!("begin\n{dels}commit .\n"));
        assert!(Snapshot::in_pages(&core, Span::ALL).is_some());
        let end = format!("k{:03}", MOST - 1);
        assert_eq!(Snapshot::in_pages(&core, Span { lo: b"k", hi: Some(end.as_bytes()) }), None);
    }
}
