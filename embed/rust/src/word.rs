//! Words: how lines spell bytes.
//!
//! A printable byte other than `%` is itself, and any other byte is `%` and two digits of `0123456789ABCDEF`. No bytes
//! are `-`, and the single byte `-` is `%2D`. So each list of bytes has one spelling.

use std::fmt;

/// Bytes, displayed as their word.
///
/// ```
/// use ripsawbean::Spelled;
/// assert_eq!(format!("0 put 10 {} {}\n", Spelled(b"an apple"), Spelled(b"")), "0 put 10 an%20apple -\n");
/// ```
#[derive(Clone, Copy, Debug, PartialEq, Eq)]
pub struct Spelled<'a>(pub &'a [u8]);

fn is_itself(byte: u8) -> bool {
    matches!(byte, b'!'..=b'~') && byte != b'%'
}

impl fmt::Display for Spelled<'_> {
    fn fmt(&self, f: &mut fmt::Formatter<'_>) -> fmt::Result {
        match self.0 {
            b"" => return f.write_str("-"),
            b"-" => return f.write_str("%2D"),
            _ => {}
        }
        let mut rest = self.0;
        while let Some(&byte) = rest.first() {
            let count = rest.iter().position(|byte| !is_itself(*byte)).unwrap_or(rest.len());
            if count == 0 {
                write!(f, "%{byte:02X}")?;
                rest = &rest[1..];
            } else {
                let (plain, others) = rest.split_at(count);
                f.write_str(std::str::from_utf8(plain).expect("printable ASCII"))?;
                rest = others;
            }
        }
        Ok(())
    }
}

fn digit(byte: u8) -> Option<u8> {
    match byte {
        b'0'..=b'9' => Some(byte - b'0'),
        b'A'..=b'F' => Some(byte - b'A' + 10),
        _ => None,
    }
}

/// The bytes that a word spells, or `None` where it is the spelling of no bytes.
///
/// ```
/// assert_eq!(ripsawbean::unspell("an%20apple").as_deref(), Some(b"an apple".as_slice()));
/// assert_eq!(ripsawbean::unspell("-").as_deref(), Some(b"".as_slice()));
/// assert_eq!(ripsawbean::unspell("%41"), None);
/// ```
pub fn unspell(word: &str) -> Option<Vec<u8>> {
    match word {
        "" => return None,
        "-" => return Some(Vec::new()),
        "%2D" => return Some(b"-".to_vec()),
        _ => {}
    }
    let mut bytes = Vec::with_capacity(word.len());
    let mut rest = word.as_bytes();
    while let Some((&first, others)) = rest.split_first() {
        if first == b'%' {
            let [high, low, ..] = others else { return None };
            let byte = digit(*high)? << 4 | digit(*low)?;
            if is_itself(byte) {
                return None;
            }
            bytes.push(byte);
            rest = &others[2..];
        } else {
            if !is_itself(first) {
                return None;
            }
            bytes.push(first);
            rest = others;
        }
    }
    Some(bytes)
}

#[cfg(test)]
mod tests {
    use super::*;

    #[test]
    fn words_of_the_guide() {
        for (bytes, word) in [
            (b"".as_slice(), "-"),
            (b"-", "%2D"),
            (b"--", "--"),
            (b"-a", "-a"),
            (b"%", "%25"),
            (b" ", "%20"),
            (b"a b", "a%20b"),
            (b"A", "A"),
            (b"\x00\x7f\xff", "%00%7F%FF"),
            (b"!~", "!~"),
            ("açaí".as_bytes(), "a%C3%A7a%C3%AD"),
        ] {
            assert_eq!(Spelled(bytes).to_string(), word);
            assert_eq!(unspell(word).as_deref(), Some(bytes));
        }
    }

    #[test]
    fn any_two_bytes_come_back() {
        for pair in 0..=u16::MAX {
            let bytes = pair.to_be_bytes();
            assert_eq!(unspell(&Spelled(&bytes).to_string()).as_deref(), Some(bytes.as_slice()));
        }
    }

    #[test]
    fn each_byte_has_one_spelling() {
        for byte in 0..=u8::MAX {
            let word = Spelled(&[byte]).to_string();
            let escaped = format!("%{byte:02X}");
            assert_eq!(unspell(&escaped).is_some(), escaped == word, "{escaped}");
        }
    }

    #[test]
    fn no_spelling() {
        for word in ["", "%", "%4", "%4g", "%c3", "a b", "é", "%41", "%2D%2D", "a%2D", "\n", "%%"] {
            assert_eq!(unspell(word), None, "{word:?}");
        }
    }
}
