//! What an event did, as a value. `core` makes it of each event's record, and `ledger` follows it.
//!
//! ```text
//! 0 0 begin 7 => started            Started { ts: 7 }
//! 1 0 commit 7 => committed 3       Committed { ts: 7, rows: 3 }
//! 2 63 close 9 => closed 9 0        Closed { at: 9, aborted: 0 }
//! 3 0 get 12 a => blocked 11        Refused(Blocked(11))
//! ```

use crate::growth::Read;
use ripsawbean::{Closed, CommandKind, Database, Outcome as Answer, Record, Refusal, Span};
use std::fmt;

/// What one event did.
#[derive(Clone, Debug, PartialEq, Eq)]
pub enum Outcome {
    /// Nothing that the ledger follows: a read of a snapshot, or `stats`.
    Nothing,
    /// A transaction read a key, or a span by its two bounds, which have so many bytes.
    Read {
        read: Read,
        bytes: u64,
    },
    /// A transaction wrote a row by a line of so many bytes.
    Written {
        ts: u64,
        bytes: u64,
        is_delete: bool,
    },
    Started {
        ts: u64,
    },
    Committed {
        ts: u64,
        rows: u64,
    },
    Aborted {
        ts: u64,
    },
    /// A write was refused, and its transaction is aborted.
    TooLate {
        ts: u64,
    },
    Closed {
        at: u64,
        aborted: u64,
    },
    /// A feed was opened by this command, and its floor is the cursor.
    Opened {
        feed: u64,
        cursor: u64,
        command: String,
    },
    /// A poll told so many messages, and then the feed's floor is this.
    Messages {
        feed: u64,
        count: u64,
        floor: u64,
    },
    Cancelled {
        feed: u64,
    },
    Protected {
        id: u64,
        at: u64,
    },
    Released {
        id: u64,
    },
    Collected {
        horizon: u64,
        versions: u64,
    },
    /// It was refused, and changed nothing.
    Refused(Refusal),
}

/// How a call was given.
#[derive(Clone, Copy, Debug)]
pub enum Given<'a> {
    /// By a line, with its seat and its newline.
    Line(&'a [u8]),
    /// In parts: a scan of a span.
    Scan(Span<'a>),
    /// In parts too.
    Poll,
}

impl<'a> Given<'a> {
    /// The line, where there is one.
    pub fn line(self) -> &'a [u8] {
        match self {
            Given::Line(line) => line,
            Given::Scan(_) | Given::Poll => b"",
        }
    }

    /// The words of the command.
    fn words(self) -> &'a [u8] {
        let line = self.line();
        let words = line.iter().position(|&byte| byte == b' ').map_or(line, |space| &line[space + 1..]);
        words.strip_suffix(b"\n").unwrap_or(words)
    }

    /// Bytes that name the keys of a read, at most.
    fn keys(self) -> u64 {
        let bytes = match self {
            Given::Scan(span) => span.lo.len() + span.hi.map_or(0, <[u8]>::len),
            Given::Line(_) | Given::Poll => self.words().len(),
        };
        bytes as u64
    }
}

impl Outcome {
    /// What the last event did, which has this record.
    pub fn of(record: &Record, database: &mut Database, given: Given<'_>) -> Outcome {
        let at = record.at;
        match record.outcome {
            Answer::None | Answer::Value(_) | Answer::Rows(_) => match record.command {
                CommandKind::Get => Outcome::Read { read: Read::Key, bytes: given.keys() },
                CommandKind::Scan => Outcome::Read { read: Read::Span, bytes: given.keys() },
                _ => Outcome::Nothing,
            },
            Answer::Stats { .. } => Outcome::Nothing,
            Answer::Written => {
                let is_delete = record.command == CommandKind::Del;
                Outcome::Written { ts: at, bytes: given.words().len() as u64, is_delete }
            }
            Answer::Started => Outcome::Started { ts: at },
            Answer::Committed(rows) => Outcome::Committed { ts: at, rows },
            Answer::Aborted => Outcome::Aborted { ts: at },
            Answer::Closed(Closed { at, aborted }) => Outcome::Closed { at, aborted },
            Answer::Opened(feed) => {
                let command = String::from_utf8_lossy(given.words()).into_owned();
                Outcome::Opened { feed, cursor: at, command }
            }
            Answer::Messages(count) => {
                Outcome::Messages { feed: at, count, floor: database.places(Some(at)).floor.unwrap_or(0) }
            }
            Answer::Cancelled => Outcome::Cancelled { feed: at },
            Answer::Protected(id) => Outcome::Protected { id, at },
            Answer::Released => Outcome::Released { id: at },
            Answer::Collected { horizon, removed } => Outcome::Collected { horizon, versions: removed },
            Answer::Refused(Refusal::TooLate) => Outcome::TooLate { ts: at },
            Answer::Refused(refusal) => Outcome::Refused(refusal),
        }
    }
}

/// The answer's words.
impl fmt::Display for Outcome {
    fn fmt(&self, f: &mut fmt::Formatter<'_>) -> fmt::Result {
        match self {
            Outcome::Nothing | Outcome::Read { .. } => f.write_str("a value"),
            Outcome::Written { .. } => f.write_str("written"),
            Outcome::Started { .. } => f.write_str("started"),
            Outcome::Committed { rows, .. } => write!(f, "committed {rows}"),
            Outcome::Aborted { .. } => f.write_str("aborted"),
            Outcome::TooLate { .. } => f.write_str("toolate"),
            Outcome::Closed { at, aborted } => write!(f, "closed {at} {aborted}"),
            Outcome::Opened { feed, .. } => write!(f, "opened {feed}"),
            Outcome::Messages { count, .. } => write!(f, "messages {count}"),
            Outcome::Cancelled { .. } => f.write_str("cancelled"),
            Outcome::Protected { id, .. } => write!(f, "protected {id}"),
            Outcome::Released { .. } => f.write_str("released"),
            Outcome::Collected { horizon, versions } => write!(f, "collected {horizon} {versions}"),
            Outcome::Refused(refusal) => refusal.fmt(f),
        }
    }
}

/// The name of a refusal: the first word of its answer.
pub fn name_of(refusal: Refusal) -> &'static str {
    match refusal {
        Refusal::BelowClosed(_) => "belowclosed",
        Refusal::TsUsed => "tsused",
        Refusal::TsRange => "tsrange",
        Refusal::Blocked(_) => "blocked",
        Refusal::NoTxn => "notxn",
        Refusal::NotOwner => "notowner",
        Refusal::Ended => "ended",
        Refusal::TooLate => "toolate",
        Refusal::NotClosed(_) => "notclosed",
        Refusal::BelowHorizon(_) => "belowhorizon",
        Refusal::NoProtection => "noprotection",
        Refusal::NoFeed => "nofeed",
        Refusal::FeedCancelled => "feedcancelled",
        Refusal::NoMemory => "nomemory",
        Refusal::GapRange => "gaprange",
    }
}

#[cfg(test)]
mod tests {
    use super::*;
    /// The outcome of the last of some lines.
    fn last_of(lines: &[&str]) -> Outcome {
        let mut database = Database::open(16).expect("it opens");
        let mut last = None;
        for line in lines {
            let line = format!("{line}\n");
            database.call(&line).expect("a call");
            let record = database.last().expect("it was made");
            last = Some(Outcome::of(&record, &mut database, Given::Line(line.as_bytes())));
        }
        last.expect("there is a line")
    }

    const WRITTEN: [&str; 4] = ["0 begin 7", "0 put 7 a 1", "0 put 7 => =>", "0 commit 7"];

    fn after_writing(lines: &[&str]) -> Outcome {
        last_of(&[&WRITTEN[..], lines].concat())
    }

    #[test]
    fn transactions() {
        assert_eq!(last_of(&WRITTEN[..1]), Outcome::Started { ts: 7 });
        assert_eq!(last_of(&WRITTEN[..2]), Outcome::Written { ts: 7, bytes: 9, is_delete: false });
        assert_eq!(last_of(&WRITTEN[..3]), Outcome::Written { ts: 7, bytes: 11, is_delete: false });
        assert_eq!(last_of(&["0 begin 7", "0 del 7 a"]), Outcome::Written { ts: 7, bytes: 7, is_delete: true });
        assert_eq!(last_of(&WRITTEN), Outcome::Committed { ts: 7, rows: 2 });
        assert_eq!(last_of(&["0 begin 7", "0 abort 7"]), Outcome::Aborted { ts: 7 });
        assert_eq!(last_of(&["0 begin 7", "0 begin 9", "0 get 9 a", "0 put 7 a 1"]), Outcome::TooLate { ts: 7 });
        assert_eq!(last_of(&["0 begin 7", "0 get 7 =>"]), Outcome::Read { read: Read::Key, bytes: 8 });
        assert_eq!(after_writing(&["0 begin 9", "0 scan 9 - =>"]), Outcome::Read { read: Read::Span, bytes: 11 });
        assert_eq!(after_writing(&["0 close 9", "0 readat 9 a"]), Outcome::Nothing);
    }

    #[test]
    fn closing_and_holding() {
        assert_eq!(after_writing(&["0 close 9"]), Outcome::Closed { at: 9, aborted: 0 });
        assert_eq!(last_of(&["0 begin 7", "0 closehard 9"]), Outcome::Closed { at: 9, aborted: 1 });
        assert_eq!(last_of(&["0 protect 0"]), Outcome::Protected { id: 1, at: 0 });
        assert_eq!(last_of(&["0 protect 0", "0 release 1"]), Outcome::Released { id: 1 });
        assert_eq!(after_writing(&["0 close 9", "0 collect 9"]), Outcome::Collected { horizon: 9, versions: 0 });
    }

    #[test]
    fn feeds() {
        let opened = Outcome::Opened { feed: 1, cursor: 0, command: "open - b 0".into() };
        assert_eq!(last_of(&["0 open - b 0"]), opened);
        let polled = |lines: &[&str]| after_writing(&[&["0 open - - 0"], lines].concat());
        assert_eq!(polled(&["0 poll 1 9"]), Outcome::Messages { feed: 1, count: 0, floor: 0 });
        assert_eq!(polled(&["0 close 9", "0 poll 1 9"]), Outcome::Messages { feed: 1, count: 3, floor: 9 });
        assert_eq!(polled(&["0 close 9", "0 poll 1 2"]), Outcome::Messages { feed: 1, count: 2, floor: 6 });
        assert_eq!(polled(&["1 cancel 1"]), Outcome::Cancelled { feed: 1 });
    }

    #[test]
    fn a_line_and_parts_name_keys_of_so_many_bytes() {
        let given = Given::Line(b"63 scan 7 a%20b c\n");
        assert_eq!((given.words(), given.keys()), (&b"scan 7 a%20b c"[..], 14));
        let scan = Given::Scan(Span { lo: b"a b", hi: Some(b"c") });
        assert_eq!((scan.line(), scan.keys(), Given::Poll.keys()), (&b""[..], 4, 0));
    }

    #[test]
    fn refusals() {
        for (lines, refusal) in [
            (["0 close 9", "0 begin 9"], Refusal::BelowClosed(9)),
            (["0 begin 9", "0 begin 9"], Refusal::TsUsed),
            (["0 begin 9", "1 get 9 a"], Refusal::NotOwner),
            (["0 open - - 0", "1 poll 1 1"], Refusal::NotOwner),
            (["0 stats", "0 commit 5"], Refusal::NoTxn),
            (["0 stats", "0 readat 5 a"], Refusal::NotClosed(0)),
            (["0 stats", "0 cancel 5"], Refusal::NoFeed),
            (["0 stats", "0 release 5"], Refusal::NoProtection),
        ] {
            assert_eq!(last_of(&lines), Outcome::Refused(refusal), "{lines:?}");
            assert_eq!(refusal.to_string().split(' ').next(), Some(name_of(refusal)));
        }
        assert_eq!(
            last_of(&["0 begin 7", "0 put 7 a 1", "1 begin 9", "1 get 9 a"]),
            Outcome::Refused(Refusal::Blocked(7))
        );
    }
}
