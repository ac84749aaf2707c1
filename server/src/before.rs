//! `GET /feed?before=1`: each row has the value that its key had before.
//!
//! ```text
//! {"after":"Mg==","key":"YQ==","updated":"20"}
//! {"after":"Mg==","before":"MQ==","key":"YQ==","updated":"20"}      by readat 19 a
//! ```
//!
//! A row's key is read just below its timestamp, under the lock of its poll. The feed held the horizon below all rows of
//! the poll, and no collection comes between. All keys of a poll are read by one crossing into the library.
//!
//! 1. `before` is the value that the feed told of the key last, in the whole database's history: null where there was
//!    none, and of a row that a feed begins with.
//! 2. Members stand in the order of their names, as in the database's own messages.

use crate::core::Core;
use crate::seats::OWN_SEAT;
use ripsawbean::{CallError, Spelled};
use std::io::Write;

/// What the text of a row is made of.
struct Row<'a> {
    /// `{"after":..` up to its comma.
    after: &'a str,
    key: &'a str,
    updated: u64,
}

/// The lines of a poll with `before` in each row. `initial` is the timestamp of the rows that the feed begins with.
pub fn with_before(core: &mut Core, text: &[u8], initial: Option<u64>) -> Result<Vec<u8>, CallError> {
    let lines = std::str::from_utf8(text).expect("the database writes printable ASCII");
    let rows: Vec<_> = lines.lines().map(|line| (line, Row::of(line))).collect();
    let mut reads = Vec::new();
    let is_read = |row: &Row<'_>| Some(row.updated) != initial;
    for row in rows.iter().filter_map(|(_, row)| row.as_ref()).filter(|row| is_read(row)) {
        let key = base64::decode(row.key).expect("the database writes base64");
        // Writing to a vector can't fail.
        let _ = writeln!(reads, "{OWN_SEAT} readat {} {}", row.updated - 1, Spelled(&key));
    }
    let mut values = Vec::new();
    if !reads.is_empty() {
        core.show_all(&reads, &mut |event| {
            values.push(event.answer().strip_prefix("value ").and_then(ripsawbean::unspell))
        })?;
    }
    let mut values = values.into_iter();
    let mut out = Vec::with_capacity(lines.len() * 2);
    for (line, row) in rows {
        let Some(row) = row else {
            out.extend_from_slice(line.as_bytes());
            out.push(b'\n');
            continue;
        };
        let before = if is_read(&row) { values.next().ok_or(CallError::Unwritten)? } else { None };
        out.extend_from_slice(row.after.as_bytes());
        // Writing to a vector can't fail.
        let _ = match before {
            Some(value) => write!(out, ",\"before\":\"{}\"", base64::encode(value)),
            None => write!(out, ",\"before\":null"),
        };
        let _ = writeln!(out, ",\"key\":\"{}\",\"updated\":\"{}\"}}", row.key, row.updated);
    }
    Ok(out)
}

impl<'a> Row<'a> {
    /// The parts of a row's line. A resolved message is none.
    fn of(line: &'a str) -> Option<Row<'a>> {
        let line = line.strip_suffix("\"}").filter(|line| line.starts_with("{\"after\":"))?;
        // To look for a byte takes less than to look for a word. Neither a key nor a number has a quotation mark.
        let (rest, updated) = line.rsplit_once('"')?;
        let (rest, key) = rest.strip_suffix("\",\"updated\":")?.rsplit_once('"')?;
        Some(Row { after: rest.strip_suffix(",\"key\":")?, key, updated: updated.parse().ok()? })
    }
}

#[cfg(test)]
mod tests {
    use super::*;
    use crate::outcome::Outcome;
    use crate::seats::Owner;
    use crate::testing::{core, say, session, tidy, Dice};
    use ripsawbean::{Command, Message, Room, Span};
    use std::collections::HashMap;

    fn opened(core: &mut Core, command: Command<'_>) -> u64 {
        match core.ask(Owner::Server, command) {
            Ok(Outcome::Opened { feed, .. }) => feed,
            other => panic!("{other:?}"),
        }
    }

    fn polled(core: &mut Core, feed: u64, most: u64, initial: Option<u64>) -> String {
        let mut text = Vec::new();
        core.poll(feed, Room { rows: most, bytes: u64::MAX }, &mut text).expect("a poll");
        let text = with_before(core, &text, initial).expect("values");
        String::from_utf8(text).expect("text")
    }

    #[test]
    fn each_row_has_the_value_before() {
        let mut core = core(&[]);
        let mut one = session(&mut core);
        say(&mut core, &mut one, "begin\nput . a 1\nput . b -\ncommit .\n");
        let all = opened(&mut core, Command::Open { span: Span::ALL, cursor: 0 });
        let initial = opened(&mut core, Command::OpenInitial { span: Span::ALL, cursor: 1 });
        say(&mut core, &mut one, "begin\nput . a 2\ndel . b\ndel . c\ncommit .\n");
        let later = "{\"after\":\"Mg==\",\"before\":\"MQ==\",\"key\":\"YQ==\",\"updated\":\"2\"}\n\
                     {\"after\":null,\"before\":\"\",\"key\":\"Yg==\",\"updated\":\"2\"}\n\
                     {\"after\":null,\"before\":null,\"key\":\"Yw==\",\"updated\":\"2\"}\n{\"resolved\":\"2\"}\n";
        let first = "{\"after\":\"MQ==\",\"before\":null,\"key\":\"YQ==\",\"updated\":\"1\"}\n\
                     {\"after\":\"\",\"before\":null,\"key\":\"Yg==\",\"updated\":\"1\"}\n";
        assert_eq!(polled(&mut core, all, 99, None), format!("{first}{later}"));
        let calls = core.ledger.calls;
        assert_eq!(polled(&mut core, initial, 99, Some(1)), format!("{first}{later}"));
        assert_eq!(core.ledger.calls - calls, 4, "a poll, and a read of each row that isn't an initial one");
    }

    #[test]
    fn a_row_that_is_put_anew_at_the_cursor_is_an_initial_one_and_no_other() {
        let mut core = core(&[]);
        let mut one = session(&mut core);
        say(&mut core, &mut one, "begin\nput . a 1\ncommit .\n");
        let feed = opened(&mut core, Command::OpenInitial { span: Span::ALL, cursor: 1 });
        say(&mut core, &mut one, "begin\nput . a 1\ncommit .\n");
        let text = polled(&mut core, feed, 99, Some(1));
        assert_eq!(text.matches("\"before\":null").count(), 1);
        assert_eq!(text.matches("\"before\":\"MQ==\"").count(), 1);
    }

    /// Transactions that commit out of order, while versions are collected as far as the feed allows.
    #[test]
    fn it_is_the_value_that_was_told_last() {
        for seed in 0..20 {
            let (mut core, mut dice) = (core(&["--history", "0"]), Dice::new(seed));
            let mut sessions = [session(&mut core), session(&mut core)];
            let feed = opened(&mut core, Command::Open { span: Span::ALL, cursor: 0 });
            let (mut last, mut rows) = (HashMap::new(), 0);
            for _ in 0..40 {
                for one in &mut sessions {
                    let write = |dice: &mut Dice| match dice.one_in(3) {
                        true => format!("del . k{}\n", dice.below(5)),
                        false => format!("put . k{} {}\n", dice.below(5), dice.below(99)),
                    };
                    let lines: String = (0..3).map(|_| write(&mut dice)).collect();
                    say(&mut core, one, &format!("begin\n{lines}"));
                }
                for one in sessions.iter_mut().rev() {
                    say(&mut core, one, ["commit .\n", "commit .\n", "abort .\n"][dice.below(3) as usize]);
                }
                let text = polled(&mut core, feed, dice.below(4) + 1, None);
                for line in text.lines() {
                    let Some((head, rest)) = line.split_once(",\"before\":") else { continue };
                    let (before, rest) = rest.split_once(",\"key\"").expect("a key");
                    let Some(Message::Row(row)) = Message::of(&format!("{head},\"key\"{rest}")) else {
                        panic!("{line}")
                    };
                    let after = head.strip_prefix("{\"after\":").expect("a row").to_string();
                    let expected = last.insert(row.key, after).unwrap_or_else(|| "null".into());
                    assert_eq!(before, expected, "{line}");
                    rows += 1;
                }
                tidy(&mut core);
            }
            assert!(rows > 50 && core.ledger.horizon > 10 && core.shouts == 0, "{rows} rows");
        }
    }
}
