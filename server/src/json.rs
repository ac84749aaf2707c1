//! Objects of JSON, member by member in the order in which a client sees them.
//!
//! Numbers of the database are strings of digits, because JavaScript can't hold all of them as numbers. Counts and
//! seconds are numbers.
//!
//! ```text
//! Object::new().text("end", "lag").digits("floor", 7).line()     {"end":"lag","floor":"7"}\n
//! ```

use crate::http::Response;
use bytes::Bytes;
use std::fmt::{Display, Write};
use std::time::Duration;

/// An answer of such lines.
pub fn lines(text: impl Into<Bytes>) -> Response {
    Response::whole("application/x-ndjson; charset=utf-8", text)
}

/// An object that is being written.
pub struct Object {
    text: String,
}

impl Object {
    pub fn new() -> Object {
        Object { text: String::from("{") }
    }

    /// A string, or null.
    pub fn text<'a>(self, name: &str, value: impl Into<Option<&'a str>>) -> Object {
        let text = value.into().map(|text| serde_json::Value::from(text).to_string());
        self.member(name, text.as_deref().unwrap_or("null"))
    }

    /// A number of the database, or null.
    pub fn digits(self, name: &str, value: impl Into<Option<u64>>) -> Object {
        match value.into() {
            Some(number) => self.member(name, format_args!("\"{number}\"")),
            None => self.member(name, "null"),
        }
    }

    /// A count, or null.
    pub fn count(self, name: &str, value: impl Into<Option<u64>>) -> Object {
        match value.into() {
            Some(number) => self.member(name, number),
            None => self.member(name, "null"),
        }
    }

    pub fn flag(self, name: &str, value: bool) -> Object {
        self.member(name, value)
    }

    /// A time in seconds, to a thousandth.
    pub fn seconds(self, name: &str, value: Duration) -> Object {
        self.member(name, format_args!("{:?}", (value.as_secs_f64() * 1000.0).round() / 1000.0))
    }

    /// The object whole.
    pub fn end(mut self) -> String {
        self.text.push('}');
        self.text
    }

    /// The object as a line.
    pub fn line(self) -> String {
        let mut line = self.end();
        line.push('\n');
        line
    }

    fn member(mut self, name: &str, value: impl Display) -> Object {
        let comma = if self.text.len() > 1 { "," } else { "" };
        write!(self.text, "{comma}\"{name}\":{value}").expect("a string takes what is written");
        self
    }
}

#[cfg(test)]
mod tests {
    use super::*;

    #[test]
    fn members_stand_in_their_order() {
        let object = Object::new().text("b", "x\"\\\n").digits("a", 1 << 63).count("c", 5).flag("d", true);
        assert_eq!(object.end(), r#"{"b":"x\"\\\n","a":"9223372036854775808","c":5,"d":true}"#);
    }

    #[test]
    fn what_is_not_there_is_null() {
        let object = Object::new().text("a", None).digits("b", None).count("c", None);
        assert_eq!(object.line(), "{\"a\":null,\"b\":null,\"c\":null}\n");
        assert_eq!(Object::new().line(), "{}\n");
    }

    #[test]
    fn seconds_have_thousandths() {
        for (milliseconds, told) in [(0, "0.0"), (5_000, "5.0"), (120, "0.12"), (1_234_567, "1234.567")] {
            let object = Object::new().seconds("age", Duration::from_micros(milliseconds * 1000 + 400));
            assert_eq!(object.end(), format!("{{\"age\":{told}}}"));
        }
    }
}
