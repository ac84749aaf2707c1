//! How much a poll of the server's own asks for, and whether it has told all.
//!
//! A poll is bounded in messages and in bytes, so what it takes is known before it is made, however long the rows are
//! that come next. A short one has told all that is due, or the next message found no room.
//!
//! ```text
//! 15 rows of 60 bytes               full: there may be more
//! 3 rows of 60 bytes, resolved      short, and a row of the greatest length had room: that was all
//! 1 row of 65 kB                    short, and the next one may be as long: there may be more
//! ```
//!
//! 1. A poll tells one message at least, where any is due.
//! 2. Where `is_all` says so, nothing is due until closed moves.

use crate::options::LONGEST_ROW;
use ripsawbean::Room;

/// Bytes of a poll up to which it is known whether it has told all.
const SHORT: u64 = 1 << 14;
/// What a poll may tell. The library looks at 15 messages at once to see whether they find room.
pub const PLAIN: Room = Room { rows: 15, bytes: LONGEST_ROW + SHORT };
/// The same where each row comes with the value before, which may be as long as the row and isn't counted.
pub const WITH_BEFORE: Room = Room { rows: 4, bytes: LONGEST_ROW + SHORT };

/// Whether a poll of so much room, which told so many messages with so many bytes of text, has told all.
pub fn is_all(room: Room, count: u64, text: usize) -> bool {
    // As text no message is shorter than what it counts.
    count < room.rows && text as u64 <= SHORT
}

#[cfg(test)]
mod tests {
    use super::*;
    use crate::core::Core;
    use crate::outcome::Outcome;
    use crate::seats::Owner;
    use crate::testing::{core, say, session, Dice};
    use ripsawbean::{Command, Message, Span};

    fn opened(core: &mut Core) -> u64 {
        match core.ask(Owner::Server, Command::OpenInitial { span: Span::ALL, cursor: 0 }) {
            Ok(Outcome::Opened { feed, .. }) => feed,
            other => panic!("{other:?}"),
        }
    }

    fn polled(core: &mut Core, feed: u64, room: Room) -> (u64, String) {
        let mut text = Vec::new();
        match core.poll(feed, room, &mut text) {
            Ok(Outcome::Messages { count, .. }) => (count, String::from_utf8(text).expect("text")),
            other => panic!("{other:?}"),
        }
    }

    #[test]
    fn no_message_counts_more_than_its_text() {
        let (mut core, mut dice) = (core(&[]), Dice::new(5));
        let mut one = session(&mut core);
        let feed = opened(&mut core);
        core.ledger.set_waits(feed, true);
        for at in 0..200 {
            let value = ["-", "v", "vv", "vvvv"][dice.below(4) as usize];
            let line = if dice.one_in(3) { format!("del . k{at}\n") } else { format!("put . k{at} {value}\n") };
            say(&mut core, &mut one, &format!("begin\n{line}commit .\n"));
        }
        let (count, text) = polled(&mut core, feed, Room { rows: 1000, bytes: u64::MAX });
        assert_eq!(count, 201);
        for line in text.lines() {
            let counted = match Message::of(line).expect("a message") {
                Message::Resolved(_) => 17,
                Message::Row(row) => 17 + row.key.len() + row.after.map_or(0, |after| after.len()),
            };
            assert!(counted <= line.len() + 1, "{line}");
        }
    }

    /// Rows of drawn lengths, from none to the greatest.
    #[test]
    fn all_is_told_once_and_no_poll_takes_more_than_it_may() {
        for (seed, room) in [(1, PLAIN), (2, PLAIN), (3, WITH_BEFORE)] {
            let (mut core, mut dice) = (core(&["--keep", "10"]), Dice::new(seed));
            let mut one = session(&mut core);
            let feed = opened(&mut core);
            let (mut rows, mut told) = (0, 0);
            for _ in 0..30 {
                let puts: String = (0..dice.below(40))
                    .map(|at| format!("put . k{at} {}\n", "v".repeat(1 << dice.below(17))))
                    .collect();
                rows += puts.lines().count();
                say(&mut core, &mut one, &format!("begin\n{puts}commit .\n"));
                loop {
                    let (count, text) = polled(&mut core, feed, room);
                    assert!(text.len() < 115_000, "{count} messages, {} bytes", text.len());
                    told += text.matches("{\"after\"").count();
                    if is_all(room, count, text.len()) {
                        break;
                    }
                }
                assert_eq!(polled(&mut core, feed, room), (0, String::new()));
                assert_eq!(told, rows);
            }
        }
    }
}
