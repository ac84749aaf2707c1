//! JSON that is taken strictly: what is misspelt is refused, and never read as something else.
//!
//! ```text
//! {"then":[],"then":[1]}     refused: a member is given twice
//! {"limit":NaN}              refused: it is no JSON
//! "\ud800"                   refused: half a surrogate pair stands for no bytes
//! ```
//!
//! `serde_json` reads it. Of a member that is given twice it would keep the last one, so here is a tree of our own.
//!
//! 1. Strings without an escape are lent from the body.
//! 2. An object has at most `MOST_MEMBERS` members, because each is compared with all others.

use serde::de::{Deserialize, Deserializer, Error, MapAccess, SeqAccess, Visitor};
use serde_json::Number;
use std::borrow::Cow;
use std::fmt;

/// No object that is taken anywhere has more than three.
const MOST_MEMBERS: usize = 16;

/// A value of JSON.
#[derive(Clone, Debug, PartialEq)]
pub enum Json<'a> {
    Null,
    Bool(bool),
    Number(Number),
    Text(Cow<'a, str>),
    List(Vec<Json<'a>>),
    Object(Vec<(Cow<'a, str>, Json<'a>)>),
}

impl<'a> Json<'a> {
    /// The value that a whole body is.
    pub fn of(body: &'a [u8]) -> Result<Json<'a>, serde_json::Error> {
        serde_json::from_slice(body)
    }
}

impl<'de> Deserialize<'de> for Json<'de> {
    fn deserialize<D: Deserializer<'de>>(deserializer: D) -> Result<Json<'de>, D::Error> {
        deserializer.deserialize_any(Tree)
    }
}

/// Builds the tree.
struct Tree;

impl<'de> Visitor<'de> for Tree {
    type Value = Json<'de>;

    fn expecting(&self, f: &mut fmt::Formatter<'_>) -> fmt::Result {
        f.write_str("a value of JSON")
    }

    fn visit_unit<E>(self) -> Result<Json<'de>, E> {
        Ok(Json::Null)
    }

    fn visit_bool<E>(self, value: bool) -> Result<Json<'de>, E> {
        Ok(Json::Bool(value))
    }

    fn visit_u64<E>(self, value: u64) -> Result<Json<'de>, E> {
        Ok(Json::Number(value.into()))
    }

    fn visit_i64<E>(self, value: i64) -> Result<Json<'de>, E> {
        Ok(Json::Number(value.into()))
    }

    fn visit_f64<E: Error>(self, value: f64) -> Result<Json<'de>, E> {
        Number::from_f64(value).map(Json::Number).ok_or_else(|| E::custom("this is no number"))
    }

    fn visit_borrowed_str<E>(self, text: &'de str) -> Result<Json<'de>, E> {
        Ok(Json::Text(Cow::Borrowed(text)))
    }

    fn visit_str<E>(self, text: &str) -> Result<Json<'de>, E> {
        Ok(Json::Text(Cow::Owned(text.to_string())))
    }

    fn visit_seq<A: SeqAccess<'de>>(self, mut list: A) -> Result<Json<'de>, A::Error> {
        let mut items = Vec::new();
        while let Some(item) = list.next_element()? {
            items.push(item);
        }
        Ok(Json::List(items))
    }

    fn visit_map<A: MapAccess<'de>>(self, mut object: A) -> Result<Json<'de>, A::Error> {
        let mut members: Vec<(Cow<'de, str>, Json<'de>)> = Vec::new();
        while let Some(name) = object.next_key()? {
            let Json::Text(name) = name else { return Err(A::Error::custom("a member's name is a string")) };
            if members.iter().any(|(one, _)| *one == name) {
                return Err(A::Error::custom(format_args!("the member {name:?} is given twice")));
            }
            if members.len() == MOST_MEMBERS {
                return Err(A::Error::custom(format_args!("an object has more than {MOST_MEMBERS} members")));
            }
            members.push((name, object.next_value()?));
        }
        Ok(Json::Object(members))
    }
}

#[cfg(test)]
mod tests {
    use super::*;
    use crate::testing::Dice;

    #[test]
    fn what_is_lent_and_what_is_not() {
        let Json::List(items) = Json::of(br#"["apple", "\u00fc", 3, 2.5, -1, null, true, {"a": {}}]"#).unwrap() else {
            panic!("it is a list")
        };
        assert!(matches!(&items[0], Json::Text(Cow::Borrowed("apple"))));
        assert!(matches!(&items[1], Json::Text(Cow::Owned(text)) if text == "\u{fc}"));
        assert_eq!(items[2], Json::Number(3.into()));
        assert_eq!(items[4], Json::Number((-1).into()));
        assert_eq!(items[5..7], [Json::Null, Json::Bool(true)]);
        assert_eq!(items[7], Json::Object(vec![("a".into(), Json::Object(vec![]))]));
    }

    #[test]
    fn what_is_no_json_or_says_a_thing_twice_is_refused() {
        let deep = "[".repeat(200);
        let many = format!("{{{}}}", (0..17).map(|at| format!("\"{at}\":0")).collect::<Vec<_>>().join(","));
        for body in [
            "",
            "{",
            "{} {}",
            "NaN",
            "[Infinity]",
            "{\"a\":1,\"a\":1}",
            "{\"a\":1,\"\\u0061\":2}",
            "[1,]",
            "{\"a\":1,}",
            "'a'",
            "\u{feff}{}",
            "\"\\ud800\"",
            "\"a\nb\"",
            "1e999",
            &deep,
            &many,
        ] {
            assert!(Json::of(body.as_bytes()).is_err(), "{body}");
        }
        assert!(Json::of(b"\"\xff\"").is_err());
        assert!(Json::of(&"{}".encode_utf16().flat_map(u16::to_be_bytes).collect::<Vec<u8>>()).is_err());
        let why = Json::of(b"{\"a\":1,\"a\":1}").unwrap_err().to_string();
        assert!(why.starts_with("the member \"a\" is given twice"), "{why}");
    }

    #[test]
    fn any_bytes_are_a_value_or_refused() {
        let mut dice = Dice::new(21);
        let pieces: [&[u8]; 16] = [
            b"{",
            b"}",
            b"[",
            b"]",
            b",",
            b":",
            b"\"a\"",
            b"\"then\"",
            b"1",
            b"-0.5e3",
            b"null",
            b"true",
            b" ",
            b"\"\\u12",
            b"\xff",
            b"NaN",
        ];
        dice.each(|dice| {
            let body = dice.some(&pieces, 12);
            let taken = Json::of(&body).is_ok();
            // What is taken here is taken by any reader of JSON.
            assert!(!taken || serde_json::from_slice::<serde_json::Value>(&body).is_ok());
        });
    }
}
