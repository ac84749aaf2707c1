//! What a request asks by its query.
//!
//! Each handler says which names it takes. A value is bytes, because a bound may be any bytes. Under some names it is
//! a number of the database.
//!
//! ```text
//! arguments("/feed", "lo=a%20b&from=17", &["lo", "hi", "from"])    lo = b"a b", from = 17
//! arguments("/feed", "lo=a+b", &["lo"])                            lo = b"a+b": a plus is a plus
//! arguments("/feed", "from=017", &["from"])                        400 number
//! arguments("/feed", "lo=%zz", &["lo"])                            400 argument: nothing is guessed
//! ```
//!
//! 1. Each name is one of those that are taken, and is given once.
//! 2. A number is 0 to 2^63 - 1, in digits, without a leading zero.

use crate::refusal::Refusal;
use std::fmt::Write;

/// The greatest number of the database: 2^63 - 1.
pub const GREATEST: u64 = i64::MAX as u64;

/// The names whose values are numbers, on every path.
const NUMBERS: [&str; 8] = ["from", "gap", "stored", "generation", "since", "idle", "at", "limit"];

#[derive(Debug, Clone, PartialEq, Eq)]
enum Value {
    Number(u64),
    Bytes(Vec<u8>),
}

/// The values of a query, by name.
#[derive(Debug, Clone, Default, PartialEq, Eq)]
pub struct Arguments {
    given: Vec<(&'static str, Value)>,
}

impl Arguments {
    pub fn has(&self, name: &str) -> bool {
        self.value(name).is_some()
    }

    /// The number of this name, which has to be one whose values are numbers.
    pub fn number(&self, name: &str) -> Option<u64> {
        debug_assert!(NUMBERS.contains(&name));
        match self.value(name)? {
            Value::Number(number) => Some(*number),
            Value::Bytes(_) => None,
        }
    }

    /// The bytes of this name, which has to be one whose values are bytes.
    pub fn bytes(&self, name: &str) -> Option<&[u8]> {
        debug_assert!(!NUMBERS.contains(&name));
        match self.value(name)? {
            Value::Number(_) => None,
            Value::Bytes(bytes) => Some(bytes),
        }
    }

    /// Puts a number in place of what was given, as the header `Last-Event-ID` does.
    pub fn set_number(&mut self, name: &'static str, number: u64) {
        self.set(name, Value::Number(number));
    }

    pub fn set_bytes(&mut self, name: &'static str, bytes: Vec<u8>) {
        self.set(name, Value::Bytes(bytes));
    }

    fn value(&self, name: &str) -> Option<&Value> {
        self.given.iter().find(|(one, _)| *one == name).map(|(_, value)| value)
    }

    fn set(&mut self, name: &'static str, value: Value) {
        self.given.retain(|(one, _)| *one != name);
        self.given.push((name, value));
    }
}

/// The values of `query`, which stands behind the question mark of a request to `path`. `names` are those it may have.
pub fn arguments(path: &str, query: &str, names: &[&'static str]) -> Result<Arguments, Refusal> {
    let mut found = Arguments::default();
    for part in query.split('&').filter(|part| !part.is_empty()) {
        let (word, value) = part.split_once('=').unwrap_or((part, ""));
        let Some(name) = names.iter().copied().find(|name| *name == word) else {
            return Err(unknown(path, names));
        };
        if found.has(name) {
            return Err(Refusal::new(400, "argument", format!("{name} is given twice")));
        }
        let bytes = percent_decoded(value.as_bytes())?;
        let value = if NUMBERS.contains(&name) { Value::Number(number(name, &bytes)?) } else { Value::Bytes(bytes) };
        found.given.push((name, value));
    }
    Ok(found)
}

fn unknown(path: &str, names: &[&'static str]) -> Refusal {
    let why = match names {
        [] => format!("the query of {path} has to be empty"),
        _ => format!("the query of {path} may have {}", names.join(", ")),
    };
    Refusal::new(400, "argument", why)
}

fn number(name: &str, word: &[u8]) -> Result<u64, Refusal> {
    number_of(word).ok_or_else(|| {
        let why = format!("{name} has to be a number from 0 to {GREATEST}, without a leading zero");
        Refusal::new(400, "number", why)
    })
}

/// The number that is spelled by digits without a leading zero, if it is one of the database.
pub fn number_of(word: &[u8]) -> Option<u64> {
    let is_plain = word.iter().all(u8::is_ascii_digit) && (word.len() == 1 || word.first() != Some(&b'0'));
    let number = std::str::from_utf8(word).ok().filter(|_| is_plain)?.parse().ok()?;
    (number <= GREATEST).then_some(number)
}

/// Whether something is asked for by `NAME=1`.
pub fn flag_in(given: &Arguments, name: &str) -> Result<bool, Refusal> {
    match given.bytes(name) {
        None | Some(b"0") => Ok(false),
        Some(b"1") => Ok(true),
        Some(_) => Err(Refusal::new(400, "argument", format!("{name} has to be 0 or 1"))),
    }
}

/// How a query spells bytes: letters, digits and `-._~` are themselves.
pub fn percent_encoded(bytes: &[u8]) -> String {
    let mut word = String::with_capacity(bytes.len());
    for &byte in bytes {
        if byte.is_ascii_alphanumeric() || b"-._~".contains(&byte) {
            word.push(char::from(byte));
        } else {
            // Writing to a string can't fail.
            let _ = write!(word, "%{byte:02X}");
        }
    }
    word
}

/// The bytes for which a word stands: `%` and two hexadecimal digits are one byte, and all else is itself.
pub fn percent_decoded(word: &[u8]) -> Result<Vec<u8>, Refusal> {
    let mut bytes = Vec::with_capacity(word.len());
    let mut rest = word;
    while let [first, behind @ ..] = rest {
        let (byte, left) = if *first == b'%' { escaped(behind).ok_or_else(half_escape)? } else { (*first, behind) };
        bytes.push(byte);
        rest = left;
    }
    Ok(bytes)
}

/// The byte of two hexadecimal digits with which `word` begins, and what follows.
fn escaped(word: &[u8]) -> Option<(u8, &[u8])> {
    let [high, low, behind @ ..] = word else { return None };
    let digit = |byte: u8| char::from(byte).to_digit(16);
    // Two hexadecimal digits are below 256.
    Some(((digit(*high)? * 16 + digit(*low)?) as u8, behind))
}

fn half_escape() -> Refusal {
    Refusal::new(400, "argument", "two hexadecimal digits have to follow each %, and %25 stands for one")
}

#[cfg(test)]
mod tests {
    use super::*;
    use crate::testing::Dice;

    const NAMES: [&str; 6] = ["lo", "hi", "from", "gap", "identity", "consumer"];

    fn refused(query: &str) -> (u16, &'static str, String) {
        let refusal = arguments("/feed", query, &NAMES).unwrap_err();
        (refusal.status, refusal.error, refusal.why)
    }

    #[test]
    fn values_are_bytes_or_numbers_by_their_name() {
        let given = arguments("/feed", "lo=a%20b&hi=&from=17&&identity", &NAMES).unwrap();
        assert_eq!(given.bytes("lo"), Some(&b"a b"[..]));
        assert_eq!(given.bytes("hi"), Some(&b""[..]));
        assert_eq!(given.bytes("identity"), Some(&b""[..]));
        assert_eq!(given.number("from"), Some(17));
        assert_eq!((given.number("gap"), given.bytes("consumer")), (None, None));
        assert!(given.has("hi") && !given.has("gap"));
        assert_eq!(arguments("/state", "", &[]).unwrap(), Arguments::default());
    }

    #[test]
    fn bounds_are_any_bytes() {
        for (query, bytes) in [
            ("lo=%00%fF%Ff", &b"\0\xff\xff"[..]),
            ("lo=a+b", b"a+b"),
            ("lo=a=b", b"a=b"),
            ("lo=%25%32%355", b"%255"),
            ("lo=\u{e9}", b"\xc3\xa9"),
        ] {
            assert_eq!(arguments("/feed", query, &NAMES).unwrap().bytes("lo"), Some(bytes), "{query}");
        }
    }

    #[test]
    fn half_an_escape_is_refused() {
        for query in ["lo=%", "lo=%4", "lo=%4g", "lo=%zz", "lo=a%%41", "lo=%+1", "lo=%-1", "lo=%u00e9", "from=%3"] {
            let (status, error, why) = refused(query);
            assert!((status, error) == (400, "argument") && why.contains("%25"), "{query}: {why}");
        }
    }

    #[test]
    fn numbers_are_those_of_the_database() {
        for (word, number) in [("0", 0), ("9", 9), ("%31%30", 10), ("9223372036854775807", i64::MAX as u64)] {
            let given = arguments("/feed", &format!("from={word}"), &NAMES).unwrap();
            assert_eq!(given.number("from"), Some(number), "{word}");
        }
        let why = "from has to be a number from 0 to 9223372036854775807, without a leading zero";
        for word in
            ["", "00", "01", "-1", "+1", "1.0", "x", "1 ", "9223372036854775808", "99999999999999999999", "%d9%a1"]
        {
            assert_eq!(refused(&format!("from={word}")), (400, "number", why.to_string()), "{word}");
        }
    }

    #[test]
    fn names_are_those_of_the_path_and_given_once() {
        let why = "the query of /feed may have lo, hi, from, gap, identity, consumer";
        for query in ["since=1", "LO=1", "l%6f=1", "=1", "lo=1&since=2", " lo=1"] {
            assert_eq!(refused(query), (400, "argument", why.to_string()), "{query}");
        }
        for query in ["lo=1&lo=1", "lo&hi=1&lo"] {
            assert_eq!(refused(query), (400, "argument", "lo is given twice".to_string()), "{query}");
        }
        assert_eq!(arguments("/state", "a=1", &[]).unwrap_err().why, "the query of /state has to be empty");
    }

    #[test]
    fn a_value_can_be_put_in_anothers_place() {
        let mut given = arguments("/feed", "from=1&identity=a", &NAMES).unwrap();
        given.set_number("from", 2);
        given.set_bytes("identity", b"b".to_vec());
        given.set_bytes("lo", b"c".to_vec());
        assert_eq!((given.number("from"), given.bytes("identity")), (Some(2), Some(&b"b"[..])));
        assert_eq!(given.bytes("lo"), Some(&b"c"[..]));
    }

    #[test]
    fn any_query_is_values_or_a_refusal() {
        let mut dice = Dice::new(11);
        let pieces: [&[u8]; 14] = [
            b"lo",
            b"hi",
            b"from",
            b"=",
            b"=",
            b"&",
            b"%",
            b"%41",
            b"%00",
            b"0",
            b"9",
            b"9223372036854775807",
            b"+",
            "\u{e9}".as_bytes(),
        ];
        dice.each(|dice| {
            let query = String::from_utf8(dice.some(&pieces, 12)).unwrap();
            let Ok(given) = arguments("/feed", &query, &NAMES) else { return };
            for part in query.split('&').filter(|part| !part.is_empty()) {
                let (name, word) = part.split_once('=').unwrap_or((part, ""));
                let decoded = percent_decoded(word.as_bytes()).expect("it is taken");
                assert!(decoded.len() <= word.len());
                match name {
                    "from" => assert_eq!(given.number(name).unwrap().to_string().as_bytes(), decoded, "{query}"),
                    _ => assert_eq!(given.bytes(name).unwrap(), decoded, "{query}"),
                }
            }
        });
    }

    #[test]
    fn any_bytes_can_be_spelled() {
        let mut dice = Dice::new(12);
        dice.each(|dice| {
            let bytes: Vec<u8> = (0..dice.below(20)).map(|_| dice.below(256) as u8).collect();
            let upper: String = bytes.iter().map(|byte| format!("%{byte:02X}")).collect();
            let lower: String = bytes.iter().map(|byte| format!("%{byte:02x}")).collect();
            for word in [upper, lower, percent_encoded(&bytes)] {
                assert_eq!(percent_decoded(word.as_bytes()).unwrap(), bytes);
            }
        });
    }
}
