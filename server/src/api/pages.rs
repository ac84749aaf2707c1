//! The first rows of a span at a closed timestamp, at the cost of what is told and not of the span.
//!
//! ```text
//! page(a .. -, 7, 2)     scanat 7 a c     rows a, b     next c
//! page(c .. -, 7, 2)     scanat 7 c -     rows c        next none
//! ```
//!
//! 1. The rows are those of the span at that timestamp, keys rising, up to `next`, or all of them where there is none.
//! 2. A page has `MOST_BYTES` at most.
//! 3. It passes over keys of which it tells nothing, such as deleted ones, for `TURN` at most. Then it ends early, where
//!    it has come to: it may have no row.

use crate::core::Core;
use ripsawbean::{Command, CommandError, Refusal, Room, Span};
use std::time::Instant;

/// Bytes of a page: each row has those of its key and its value, and 17 more.
pub const MOST_BYTES: u64 = 4 << 20;
/// Rows of a long read that are read at once, and bytes of them.
pub const PART: Room = Room { rows: 1000, bytes: 1 << 18 };

/// Parts of a walk behind which it may end early.
const FEWEST_PARTS: usize = 8;

/// Keys and their values.
pub type Rows = Vec<(Vec<u8>, Vec<u8>)>;

/// See the module.
#[derive(Debug, Default, PartialEq)]
pub struct Page {
    pub rows: Rows,
    /// Where the next page begins. There may be no row behind it.
    pub next: Option<Vec<u8>>,
}

/// Why nothing was read.
#[derive(Clone, Copy, Debug, PartialEq, Eq)]
pub enum Unread {
    /// The horizon is told.
    BelowHorizon(u64),
    NoMemory,
}

impl Core {
    /// The first rows of a span at a closed timestamp, as far as they find room, and as it comes until then.
    pub fn page_until(&mut self, span: Span<'_>, at: u64, mut room: Room, until: Instant) -> Result<Page, Unread> {
        let mut page = Page::default();
        if at == 0 || span.hi.is_some_and(|hi| span.lo >= hi) {
            return Ok(page);
        }
        let mut lo = span.lo.to_vec();
        for parts in 1.. {
            let cut = self.cuts.first(&lo, span.hi).map(<[u8]>::to_vec);
            let found = self.part(Span { lo: &lo, hi: cut.as_deref().or(span.hi) }, at, room)?;
            room.rows -= found.rows.len() as u64;
            room.bytes -= found.bytes();
            page.rows.extend(found.rows);
            page.next = found.next;
            let Some(cut) = cut.filter(|_| page.next.is_none()) else { break };
            if room.rows == 0 || parts >= FEWEST_PARTS && Instant::now() >= until {
                page.next = Some(cut);
                break;
            }
            lo = cut;
        }
        Ok(page)
    }

    fn part(&mut self, span: Span<'_>, at: u64, room: Room) -> Result<Page, Unread> {
        self.scan(Command::ScanAt { t: at, span }, room).map_err(|error| match error {
            CommandError::Refused(Refusal::BelowHorizon(horizon)) => Unread::BelowHorizon(horizon),
            _ => Unread::NoMemory,
        })
    }
}

impl Page {
    /// Bytes of its rows, as its room counts them.
    pub fn bytes(&self) -> u64 {
        self.rows.iter().map(|(key, value)| 17 + key.len() as u64 + value.len() as u64).sum()
    }

    /// Rows of a span, and where they end before it. The library tells the first row in any case: one without room is the
    /// next page's.
    pub fn of(rows: ripsawbean::Rows<'_>, span: Span<'_>, room: Room) -> Page {
        let next = rows.end().filter(|end| span.hi != Some(end)).map(<[u8]>::to_vec);
        let mut page = Page { rows: rows.map(|(key, value)| (key.to_vec(), value.to_vec())).collect(), next };
        if page.rows.len() as u64 > room.rows || page.bytes() > room.bytes {
            page.next = page.rows.pop().map(|(key, _)| key);
        }
        page
    }
}

#[cfg(test)]
mod tests {
    use super::*;
    use crate::cuts::Cuts;
    use crate::testing::{core, say, session, tidy, Dice};

    fn keys(page: &Page) -> Vec<&str> {
        page.rows.iter().map(|(key, _)| std::str::from_utf8(key).expect("text")).collect()
    }

    fn text(key: Option<&Vec<u8>>) -> Option<&str> {
        key.map(|key| std::str::from_utf8(key).expect("text"))
    }

    #[test]
    fn pages_go_on_where_the_one_before_has_ended() {
        let mut core = core(&[]);
        let mut one = session(&mut core);
        let puts: String = (0..300).map(|row| format!("put . k{row:03} {row}\n")).collect();
        say(&mut core, &mut one, &format!("begin\n{puts}commit .\n"));
        // What is changed above the snapshot isn't told.
        say(&mut core, &mut one, "begin\nput . k000 x\ndel . k001\nput . l 1\ncommit .\n");
        let (mut lo, mut found) = (Vec::new(), Vec::new());
        loop {
            let page = core.page(Span { lo: &lo, hi: None }, 1, 37).expect("a page");
            assert!(page.rows.len() == 37 || page.next.is_none());
            found.extend(page.rows);
            match page.next {
                Some(next) => lo = next,
                None => break,
            }
        }
        assert_eq!(found.len(), 300);
        assert!(found.iter().enumerate().all(|(at, (key, value))| {
            (key, value) == (&format!("k{at:03}").into_bytes(), &at.to_string().into_bytes())
        }));
        assert_eq!((core.ledger.feeds.len(), core.shouts), (0, 0));
        assert!(!core.ledger.moved, "no stream is woken by a page");
    }

    #[test]
    fn a_span_and_a_snapshot_bound_it() {
        let mut core = core(&[]);
        let mut one = session(&mut core);
        say(&mut core, &mut one, "begin\nput . a 1\nput . b 2\nput . c 3\ncommit .\n");
        say(&mut core, &mut one, "begin\ndel . b\ncommit .\n");
        for (lo, hi, at, most, found, next) in [
            ("", "", 1, 9, vec!["a", "b", "c"], None),
            ("", "", 2, 9, vec!["a", "c"], None),
            ("", "", 1, 3, vec!["a", "b", "c"], None),
            ("", "", 1, 2, vec!["a", "b"], Some("c")),
            ("a", "c", 1, 1, vec!["a"], Some("b")),
            ("b", "c", 1, 1, vec!["b"], None),
            ("b", "c", 2, 1, vec![], None),
            ("c", "b", 1, 9, vec![], None),
            ("b", "b", 1, 9, vec![], None),
            ("", "", 0, 9, vec![], None),
        ] {
            let hi = Some(hi.as_bytes()).filter(|hi| !hi.is_empty());
            let page = core.page(Span { lo: lo.as_bytes(), hi }, at, most).expect("a page");
            assert_eq!((keys(&page), text(page.next.as_ref())), (found, next), "{lo} {hi:?} {at} {most}");
        }
    }

    #[test]
    fn a_row_without_room_is_the_next_pages() {
        let mut core = core(&[]);
        let mut one = session(&mut core);
        say(&mut core, &mut one, "begin\nput . a 12\nput . b 3\ncommit .\n");
        for (hi, rows, bytes, found, next) in [
            (None, 9, 20, vec!["a"], Some("b")),
            (None, 9, 19, vec![], Some("a")),
            (None, 0, 99, vec![], Some("a")),
            (Some(b"a\0".as_slice()), 9, 19, vec![], Some("a")),
            (Some(b"a\0".as_slice()), 9, 20, vec!["a"], None),
        ] {
            let page = core.part(Span { lo: b"", hi }, 1, Room { rows, bytes }).expect("a page");
            assert_eq!((keys(&page), text(page.next.as_ref())), (found, next), "{hi:?} {rows} {bytes}");
        }
    }

    #[test]
    fn a_page_of_long_rows_ends_early() {
        let mut core = core(&["--keep", "10"]);
        let mut one = session(&mut core);
        let value = "v".repeat(65_536);
        for row in 0..80 {
            say(&mut core, &mut one, &format!("begin\nput . {row:02} {value}\ncommit .\n"));
        }
        let page = core.page(Span::ALL, 80, 1000).expect("a page");
        assert_eq!(page.rows.len(), (4 << 20) / (17 + 2 + 65_536));
        let next = page.next.expect("there are more");
        let rest = core.page(Span { lo: &next, hi: None }, 80, 1000).expect("a page");
        assert_eq!((page.rows.len() + rest.rows.len(), rest.next), (80, None));
    }

    /// The rows of all pages of a span, each ending as early as it may, and how many pages there were.
    fn walked(core: &mut Core, (lo, hi): (&[u8], Option<&[u8]>), at: u64, most: usize) -> (Rows, usize) {
        let (mut lo, mut rows) = (lo.to_vec(), Vec::new());
        let room = Room { rows: most as u64, bytes: MOST_BYTES };
        for pages in 1.. {
            let page = core.page_until(Span { lo: &lo, hi }, at, room, Instant::now()).expect("a page");
            assert!(page.rows.len() <= most && page.next.as_ref().is_none_or(|next| *next > lo));
            rows.extend(page.rows);
            match page.next {
                Some(next) => lo = next,
                None => return (rows, pages),
            }
        }
        unreachable!("a span has an end")
    }

    #[test]
    fn wherever_a_walk_is_cut_it_tells_the_same() {
        let (mut core, mut dice) = (core(&["--keep", "10"]), Dice::new(3));
        core.cuts = Cuts::of(3);
        let mut one = session(&mut core);
        say(&mut core, &mut one, "protect 0\n");
        for _ in 0..40 {
            let write = |dice: &mut Dice| match dice.one_in(2) {
                true => format!("del . k{:03}\n", dice.below(400)),
                false => format!("put . k{:03} {}\n", dice.below(400), dice.below(9)),
            };
            let lines: String = (0..40).map(|_| write(&mut dice)).collect();
            say(&mut core, &mut one, &format!("begin\n{lines}commit .\n"));
        }
        let mut pages = 0;
        for _ in 0..300 {
            let (lo, hi) = (format!("k{:03}", dice.below(400)), format!("k{:03}", dice.below(400)));
            let hi = Some(hi.as_bytes()).filter(|_| !dice.one_in(4));
            let (at, most) = (1 + dice.below(40), 1 + dice.below(30) as usize);
            let span = Span { lo: lo.as_bytes(), hi };
            let whole = match hi.is_some_and(|hi| span.lo >= hi) {
                true => Vec::new(),
                false => core.part(span, at, Room { rows: 1000, bytes: u64::MAX }).expect("rows").rows,
            };
            let (rows, count) = walked(&mut core, (span.lo, hi), at, most);
            assert_eq!(rows, whole, "{lo} {hi:?} {at} {most}");
            pages += count;
        }
        assert!(pages > 800 && core.shouts == 0, "{pages} pages");
    }

    #[test]
    fn a_page_passes_over_few_deleted_keys_at_once() {
        let mut core = core(&["--keep", "10"]);
        core.cuts = Cuts::of(100);
        let mut one = session(&mut core);
        say(&mut core, &mut one, "protect 0\n");
        for command in ["put . k%05 x\n", "del . k%05\n"] {
            let lines = |from: u32| (from..from + 2000).map(|at| command.replace("%05", &format!("{at:05}")));
            for from in (0..20_000).step_by(2000) {
                say(&mut core, &mut one, &format!("begin\n{}commit .\n", lines(from).collect::<String>()));
            }
        }
        say(&mut core, &mut one, "begin\nput . z 1\ncommit .\n");
        let (at, calls) = (core.ledger.closed, core.ledger.calls);
        let (rows, pages) = walked(&mut core, (b"", None), at, 10);
        assert_eq!(rows, [(b"z".to_vec(), b"1".to_vec())]);
        // Each part is a scan of its own.
        let parts = core.ledger.calls - calls;
        assert!(pages > 10 && (100..400).contains(&parts), "{pages} pages of {parts} parts");
        core.cuts.forget_through(at);
        assert_eq!(walked(&mut core, (b"", None), at, 10).1, 1);
    }

    #[test]
    fn below_the_horizon_nothing_is_read() {
        let mut core = core(&["--history", "0"]);
        let mut one = session(&mut core);
        say(&mut core, &mut one, "begin\nput . a 1\ncommit .\n");
        say(&mut core, &mut one, "begin\nput . a 2\ncommit .\n");
        tidy(&mut core);
        assert_eq!(core.page(Span::ALL, 1, 9), Err(Unread::BelowHorizon(2)));
        assert_eq!(keys(&core.page(Span::ALL, 2, 9).expect("a page")), ["a"]);
    }

    impl Core {
        /// The first rows of a span at a closed timestamp, `most` at most.
        pub fn page(&mut self, span: Span<'_>, at: u64, most: usize) -> Result<Page, Unread> {
            self.page_until(span, at, Room { rows: most as u64, bytes: MOST_BYTES }, Instant::now() + crate::door::TURN)
        }
    }
}
