//! Events, and the messages of feeds.

use crate::word::unspell;
use std::fmt;

/// One call that was made: its text, lent until the next call. Its display is that text.
#[derive(Clone, Copy, Debug, PartialEq, Eq)]
pub struct Event<'a> {
    text: &'a str,
}

/// A committed version that a feed tells.
#[derive(Clone, Debug, PartialEq, Eq, Hash)]
pub struct Row {
    /// Its key.
    pub key: Vec<u8>,
    /// Its value, or `None` where the key was deleted.
    pub after: Option<Vec<u8>>,
    /// The timestamp of its transaction.
    pub updated: u64,
}

/// What a feed tells.
#[derive(Clone, Debug, PartialEq, Eq, Hash)]
pub enum Message {
    /// A committed version.
    Row(Row),
    /// All rows at or below this timestamp were told.
    Resolved(u64),
}

/// What the answer of a refusal begins with.
const REFUSALS: [&str; 15] = [
    "tsrange",
    "belowclosed",
    "tsused",
    "ended",
    "notxn",
    "notowner",
    "blocked",
    "toolate",
    "notclosed",
    "belowhorizon",
    "gaprange",
    "nofeed",
    "feedcancelled",
    "noprotection",
    "nomemory",
];

impl<'a> Event<'a> {
    pub(crate) fn new(text: &'a str) -> Event<'a> {
        Event { text }
    }

    /// Its whole text, as it stands in a transcript: one line, and those that belong to its answer.
    pub fn text(self) -> &'a str {
        self.text
    }

    fn first_line(self) -> &'a str {
        self.text.split_once('\n').map_or(self.text, |(line, _)| line)
    }

    fn other_lines(self) -> std::str::Lines<'a> {
        self.text.split_once('\n').map_or("", |(_, lines)| lines).lines()
    }

    /// Its position. The events of a database are numbered from 0 without a gap.
    pub fn position(self) -> u64 {
        self.first_line()
            .split(' ')
            .next()
            .and_then(|word| word.parse().ok())
            .expect("an event begins with its position")
    }

    /// The words behind `=>`: behind the last one with a word after it, since a key or a value may be spelled so too.
    pub fn answer(self) -> &'a str {
        self.first_line().rsplit_once(" => ").map_or("", |(_, answer)| answer)
    }

    /// The answer where it is a refusal. After every refusal but `toolate` the database is as it was.
    pub fn refusal(self) -> Option<&'a str> {
        let answer = self.answer();
        answer.split(' ').next().filter(|name| REFUSALS.contains(name)).map(|_| answer)
    }

    /// The first number of the answer, where it has one: a feed's or a protection's, a timestamp, a count.
    pub fn number(self) -> Option<u64> {
        let mut words = self.answer().split(' ');
        if words.next() == Some("value") {
            return None;
        }
        words.next()?.parse().ok()
    }

    /// The value that `get` or `readat` found.
    pub fn value(self) -> Option<Vec<u8>> {
        unspell(self.answer().strip_prefix("value ")?)
    }

    /// The rows of a scan, keys rising: pairs of a key and its value.
    pub fn rows(self) -> impl Iterator<Item = (Vec<u8>, Vec<u8>)> + 'a {
        self.other_lines().filter_map(|line| {
            let (key, value) = line.strip_prefix("row ")?.split_once(' ')?;
            Some((unspell(key)?, unspell(value)?))
        })
    }

    /// The messages that a poll told, in their order.
    pub fn messages(self) -> impl Iterator<Item = Message> + 'a {
        self.other_lines().filter_map(Message::of)
    }
}

impl fmt::Display for Event<'_> {
    fn fmt(&self, f: &mut fmt::Formatter<'_>) -> fmt::Result {
        f.write_str(self.text)
    }
}

impl Message {
    /// The message of a line of JSON, without its newline, exactly as feeds write it.
    pub fn of(line: &str) -> Option<Message> {
        if let Some(rest) = line.strip_prefix("{\"resolved\":\"") {
            return Some(Message::Resolved(rest.strip_suffix("\"}")?.parse().ok()?));
        }
        let rest = line.strip_prefix("{\"after\":")?.strip_suffix("\"}")?;
        let (after, rest) = rest.split_once(",\"key\":\"")?;
        let (key, updated) = rest.split_once("\",\"updated\":\"")?;
        let after = match after {
            "null" => None,
            text => Some(bytes_of(text.strip_prefix('"')?.strip_suffix('"')?)?),
        };
        Some(Message::Row(Row { key: bytes_of(key)?, after, updated: updated.parse().ok()? }))
    }
}

/// The line of JSON, without its newline, as feeds write it.
impl fmt::Display for Message {
    fn fmt(&self, f: &mut fmt::Formatter<'_>) -> fmt::Result {
        match self {
            Message::Resolved(timestamp) => write!(f, "{{\"resolved\":\"{timestamp}\"}}"),
            Message::Row(Row { key, after, updated }) => {
                match after {
                    None => f.write_str("{\"after\":null")?,
                    Some(value) => write!(f, "{{\"after\":\"{}\"", base64_of(value))?,
                }
                write!(f, ",\"key\":\"{}\",\"updated\":\"{updated}\"}}", base64_of(key))
            }
        }
    }
}

/// Bytes as base64, with padding.
fn base64_of(bytes: &[u8]) -> String {
    const SYMBOLS: &[u8; 64] = b"ABCDEFGHIJKLMNOPQRSTUVWXYZabcdefghijklmnopqrstuvwxyz0123456789+/";
    let mut text = String::with_capacity(bytes.len().div_ceil(3) * 4);
    for group in bytes.chunks(3) {
        let bits = (0..3).fold(0usize, |bits, i| bits << 8 | usize::from(*group.get(i).unwrap_or(&0)));
        for i in 0..4 {
            text.push(if i > group.len() { '=' } else { char::from(SYMBOLS[bits >> (18 - 6 * i) & 63]) });
        }
    }
    text
}

/// The bytes of a base64 text, with its padding.
fn bytes_of(text: &str) -> Option<Vec<u8>> {
    let symbols = text.trim_end_matches('=');
    if text.len() % 4 != 0 || text.len() - symbols.len() > 2 {
        return None;
    }
    let mut bytes = Vec::with_capacity(symbols.len() / 4 * 3 + 2);
    for group in symbols.as_bytes().chunks(4) {
        let mut bits = 0u32;
        for symbol in group {
            bits = bits << 6 | u32::from(bits_of(*symbol)?);
        }
        // Of the symbols that are missing at the end each would give six bits more.
        bits <<= 6 * (4 - group.len());
        bytes.extend_from_slice(&bits.to_be_bytes()[1..group.len()]);
    }
    Some(bytes)
}

fn bits_of(symbol: u8) -> Option<u8> {
    Some(match symbol {
        b'A'..=b'Z' => symbol - b'A',
        b'a'..=b'z' => symbol - b'a' + 26,
        b'0'..=b'9' => symbol - b'0' + 52,
        b'+' => 62,
        b'/' => 63,
        _ => return None,
    })
}

#[cfg(test)]
mod tests {
    use super::*;

    #[test]
    fn texts_of_base64() {
        // The examples of RFC 4648, and bytes above 127.
        for (text, bytes) in [
            ("", b"".as_slice()),
            ("Zg==", b"f"),
            ("Zm8=", b"fo"),
            ("Zm9v", b"foo"),
            ("Zm9vYg==", b"foob"),
            ("Zm9vYmE=", b"fooba"),
            ("Zm9vYmFy", b"foobar"),
            ("AP/+/w==", b"\x00\xff\xfe\xff"),
        ] {
            assert_eq!(bytes_of(text).as_deref(), Some(bytes), "{text}");
            assert_eq!(base64_of(bytes), text);
        }
        for text in ["Zg=", "Zg", "Z===", "Zm9v=", "Zm9*"] {
            assert_eq!(bytes_of(text), None, "{text}");
        }
    }

    #[test]
    fn messages_of_the_guide() {
        let row = |key: &[u8], after: Option<&[u8]>, updated| {
            Some(Message::Row(Row { key: key.to_vec(), after: after.map(<[u8]>::to_vec), updated }))
        };
        assert_eq!(Message::of(r#"{"after":"Mg==","key":"YQ==","updated":"20"}"#), row(b"a", Some(b"2"), 20));
        assert_eq!(Message::of(r#"{"after":null,"key":"Yg==","updated":"8"}"#), row(b"b", None, 8));
        assert_eq!(Message::of(r#"{"after":"","key":"Yg==","updated":"8"}"#), row(b"b", Some(b""), 8));
        assert_eq!(Message::of(r#"{"resolved":"30"}"#), Some(Message::Resolved(30)));
        for line in ["", "{}", r#"{"resolved":30}"#, r#"{"key":"Yg==","after":"","updated":"8"}"#, "row a 1"] {
            assert_eq!(Message::of(line), None, "{line}");
        }
    }

    #[test]
    fn parts_of_a_text() {
        let event = Event::new("7 0 scan 10 - - => rows 2\nrow a%20b -\nrow c %2D\n");
        assert_eq!((event.position(), event.answer(), event.number(), event.refusal()), (7, "rows 2", Some(2), None));
        let rows: Vec<_> = event.rows().collect();
        assert_eq!(rows, [(b"a b".to_vec(), Vec::new()), (b"c".to_vec(), b"-".to_vec())]);
        let event = Event::new("8 0 get 10 a => value 12\n");
        assert_eq!((event.value(), event.number()), (Some(b"12".to_vec()), None));
        let event = Event::new("9 0 get 10 a => blocked 5\n");
        assert_eq!((event.value(), event.number(), event.refusal()), (None, Some(5), Some("blocked 5")));
        // A key and a value that are spelled as the arrow is.
        assert_eq!(Event::new("10 0 put 5 => => => toolate\n").answer(), "toolate");
        let event = Event::new("11 0 get 5 => => value =>\n");
        assert_eq!((event.answer(), event.value()), ("value =>", Some(b"=>".to_vec())));
    }
}
