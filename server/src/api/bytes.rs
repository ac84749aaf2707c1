//! Bytes in JSON: keys and values are any bytes, and JSON has texts alone.
//!
//! ```text
//! "apple"                 the UTF-8 bytes of the text
//! {"base64": "/w=="}      any bytes
//! ```
//!
//! Both are taken everywhere. Told is a text where the bytes are UTF-8, and base64 where they aren't, or everywhere for
//! whoever asks with `?bytes=base64`.
//!
//! 1. What is told is taken again as the same bytes, and each list of bytes is told in one way.

use super::strict::Json;
use crate::query::number_of;
use crate::refusal::Refusal;
use serde_json::Value;
use std::borrow::Cow;
use std::fmt::Display;
use std::io::Write;

pub const MOST_KEY: usize = 256;
pub const MOST_BOUND: usize = 257;
pub const MOST_VALUE: usize = 65_536;

/// How bytes are told.
#[derive(Clone, Copy, Debug, PartialEq, Eq)]
pub enum Spelling {
    /// As a text where they are one.
    Text,
    Base64,
}

/// A member of the body isn't what it has to be.
#[derive(Clone, Debug, PartialEq, Eq)]
pub struct Wrong {
    error: &'static str,
    /// Where it stands, as a JSON pointer.
    member: String,
    why: String,
}

impl Wrong {
    pub fn new(why: impl Into<String>) -> Wrong {
        Wrong { error: "member", member: String::new(), why: why.into() }
    }

    fn length(error: &'static str, length: usize, least: usize, most: usize) -> Wrong {
        let why = format!("it has {length} bytes, and {least} to {most} are allowed");
        Wrong { error, ..Wrong::new(why) }
    }

    /// It stands below a member, or an item of a list.
    pub fn below(self, name: impl Display) -> Wrong {
        let name = name.to_string().replace('~', "~0").replace('/', "~1");
        Wrong { member: format!("/{name}{}", self.member), ..self }
    }

    /// The refusal of the body.
    pub fn refusal(self) -> Refusal {
        Refusal::new(422, self.error, self.why).with("member", self.member)
    }
}

/// The bytes of a key.
pub fn key_in(value: Json<'_>) -> Result<Cow<'_, [u8]>, Wrong> {
    bytes_in(value, 1, MOST_KEY, "keylength")
}

/// The bytes of a value.
pub fn value_in(value: Json<'_>) -> Result<Cow<'_, [u8]>, Wrong> {
    bytes_in(value, 0, MOST_VALUE, "valuelength")
}

/// The bytes of a bound of a span.
pub fn bound_in(value: Json<'_>) -> Result<Cow<'_, [u8]>, Wrong> {
    bytes_in(value, 0, MOST_BOUND, "keylength")
}

/// A number of the database, which is a string of digits.
pub fn timestamp_in(value: &Json<'_>) -> Result<u64, Wrong> {
    match value {
        Json::Text(text) => number_of(text.as_bytes()),
        _ => None,
    }
    .ok_or_else(|| Wrong::new("a timestamp is a string of digits"))
}

fn bytes_in<'a>(value: Json<'a>, least: usize, most: usize, error: &'static str) -> Result<Cow<'a, [u8]>, Wrong> {
    let bytes = match value {
        Json::Text(Cow::Borrowed(text)) => Cow::Borrowed(text.as_bytes()),
        Json::Text(Cow::Owned(text)) => Cow::Owned(text.into_bytes()),
        Json::Object(members) => Cow::Owned(base64_in(&members)?),
        Json::Number(number) => return Err(no_bytes(&format!("; write \"{number}\""))),
        _ => return Err(no_bytes("")),
    };
    match bytes.len() {
        length if least <= length && length <= most => Ok(bytes),
        length => Err(Wrong::length(error, length, least, most)),
    }
}

fn base64_in(members: &[(Cow<'_, str>, Json<'_>)]) -> Result<Vec<u8>, Wrong> {
    let [(name, Json::Text(text))] = members else { return Err(no_bytes("")) };
    if name != "base64" {
        return Err(no_bytes(""));
    }
    // The crate takes a text without its padding too.
    let decoded = base64::decode(text.as_bytes()).ok().filter(|_| text.len() % 4 == 0);
    decoded.ok_or_else(|| Wrong::new("this is no base64").below("base64"))
}

fn no_bytes(hint: &str) -> Wrong {
    Wrong::new(format!("bytes are a string, or {{\"base64\": \"..\"}}{hint}"))
}

/// Tells bytes behind what is written.
pub fn tell(out: &mut Vec<u8>, bytes: &[u8], spelling: Spelling) {
    match std::str::from_utf8(bytes) {
        Ok(text) if spelling == Spelling::Text => {
            serde_json::to_writer(out, text).expect("a vector takes what is written");
        }
        _ => {
            let text = base64::display::Base64Display::with_config(bytes, base64::STANDARD);
            write!(out, "{{\"base64\":\"{text}\"}}").expect("a vector takes what is written");
        }
    }
}

/// Bytes that the text of these has as `Spelling::Text` tells them, but for its quotes.
pub fn length_of(bytes: &[u8]) -> usize {
    let length = |byte| match byte {
        b'"' | b'\\' | b'\n' | b'\r' | b'\t' | b'\x08' | b'\x0c' => 2,
        ..b' ' => 6,
        _ => 1,
    };
    match std::str::from_utf8(bytes) {
        Ok(text) => text.bytes().map(length).sum(),
        Err(_) => "{\"base64\":}".len() + 4 * bytes.len().div_ceil(3),
    }
}

/// The same as a value of its own.
pub fn told(bytes: &[u8], spelling: Spelling) -> Value {
    match std::str::from_utf8(bytes) {
        Ok(text) if spelling == Spelling::Text => Value::from(text),
        _ => serde_json::json!({ "base64": base64::encode(bytes) }),
    }
}

#[cfg(test)]
mod tests {
    use super::*;
    use crate::testing::Dice;

    fn taken(text: &str) -> Result<Vec<u8>, (String, String)> {
        let value = Json::of(text.as_bytes()).expect("it is JSON");
        value_in(value).map(Cow::into_owned).map_err(|wrong| (wrong.member, wrong.why))
    }

    #[test]
    fn texts_and_base64_are_bytes() {
        for (text, bytes) in [
            ("\"\"", &b""[..]),
            ("\"apple\"", b"apple"),
            ("\"\\u00fc\"", b"\xc3\xbc"),
            ("\"\\ud83d\\ude00\"", b"\xf0\x9f\x98\x80"),
            ("{\"base64\":\"/w==\"}", b"\xff"),
            ("{\"base64\":\"\"}", b""),
            ("{\"base64\":\"Zm9v\"}", b"foo"),
        ] {
            assert_eq!(taken(text).as_deref(), Ok(bytes), "{text}");
        }
    }

    #[test]
    fn all_else_is_refused_with_its_place() {
        let bytes = "bytes are a string, or {\"base64\": \"..\"}";
        for text in ["null", "true", "[]", "{}", "{\"base64\":1}", "{\"text\":\"a\"}", "{\"base64\":\"\",\"a\":1}"] {
            assert_eq!(taken(text), Err((String::new(), bytes.to_string())), "{text}");
        }
        for number in ["1", "-2", "3.5"] {
            assert_eq!(taken(number), Err((String::new(), format!("{bytes}; write \"{number}\""))));
        }
        for text in ["x", "_w==", "/w", "/w=", "/x==", "Zm9v=", "Zm9vZg", " /w=="] {
            let told = taken(&format!("{{\"base64\":\"{text}\"}}"));
            assert_eq!(told, Err(("/base64".to_string(), "this is no base64".to_string())), "{text}");
        }
    }

    #[test]
    fn lengths_have_limits() {
        let text = |length: usize| Json::Text("x".repeat(length).into());
        for (length, is_key, is_bound, is_value) in [
            (0, false, true, true),
            (1, true, true, true),
            (256, true, true, true),
            (257, false, true, true),
            (258, false, false, true),
            (65_536, false, false, true),
            (65_537, false, false, false),
        ] {
            let found = [key_in(text(length)).is_ok(), bound_in(text(length)).is_ok(), value_in(text(length)).is_ok()];
            assert_eq!(found, [is_key, is_bound, is_value], "{length} bytes");
        }
        let wrong = key_in(text(0)).unwrap_err().below("put").below(3).below("then");
        let line = "{\"error\":\"keylength\",\"why\":\"it has 0 bytes, and 1 to 256 are allowed\",\
                    \"member\":\"/then/3/put\"}\n";
        assert_eq!(wrong.refusal().line(), line);
    }

    #[test]
    fn a_place_is_a_pointer() {
        assert_eq!(Wrong::new("").below("a/b~c").member, "/a~1b~0c");
    }

    #[test]
    fn timestamps_are_digits() {
        for (text, number) in [
            ("\"0\"", Some(0)),
            ("\"9223372036854775807\"", Some(i64::MAX as u64)),
            ("\"9223372036854775808\"", None),
            ("\"01\"", None),
            ("\"-1\"", None),
            ("\"\"", None),
            ("1", None),
            ("null", None),
        ] {
            assert_eq!(timestamp_in(&Json::of(text.as_bytes()).unwrap()).ok(), number, "{text}");
        }
    }

    #[test]
    fn what_is_told_is_taken_again() {
        let mut dice = Dice::new(22);
        let pieces: [&[u8]; 10] =
            [b"a", b"\"", b"\\", b"\n", b"\x00", b"\x0c", b"\x7f", b"\xff", b"\xc3\xbc", b"\xed\xa0\x80"];
        dice.each(|dice| {
            let bytes = dice.some(&pieces, 6);
            for spelling in [Spelling::Text, Spelling::Base64] {
                let mut out = Vec::new();
                tell(&mut out, &bytes, spelling);
                assert_eq!(told(&bytes, spelling), serde_json::from_slice::<Value>(&out).unwrap());
                assert!(spelling != Spelling::Text || out.len() == length_of(&bytes) + 2);
                assert_eq!(value_in(Json::of(&out).unwrap()).as_deref(), Ok(bytes.as_slice()));
            }
        });
    }
}
