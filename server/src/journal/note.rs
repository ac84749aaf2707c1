//! Lines that tell what isn't the database's: who it is, where it stands, the places of names, and the answers to keys
//! of requests (`answers`).
//!
//! ```text
//! 0 readat 18446744073709551615 database/1914d5866a08f6aa
//! 0 readat 18446744073709551615 place/alder//srv/data
//! 0 readat 18446744073709551615 generation/7
//! 0 readat 18446744073709551615 name/prices/19/7/1/token/orders
//! 0 readat 18446744073709551615 noname/prices
//! 0 readat 18446744073709551615 key/8042/5d2f0c..1a/8be3a1..f0/9/put
//! 0 readat 18446744073709551615 told/..
//! ```

use super::answers::Key;
use super::frame::CARRIER;
use super::store::Place;
use crate::lines::number_in;
use ripsawbean::{unspell, Spelled};
use std::fmt;

/// Bytes of a host's name and of a folder's path that are told, at most: a key has 256.
const LONGEST_HOST: usize = 64;
const LONGEST_FOLDER: usize = 170;
/// Bytes of an owner beside a name: with a longer one a name is nobody's behind a restart.
const LONGEST_OWNER: usize = 140;
/// Before bytes that need not be text.
const TOLD: &[u8] = b"told/";

#[derive(Clone, Debug, PartialEq, Eq)]
pub enum Note {
    Database(String),
    Place(Place),
    /// The last generation that was given.
    Generation(u64),
    Name {
        name: String,
        kept: Kept,
    },
    NoName(String),
    /// A request that has committed, and a piece of the text that it was told.
    Key(Key),
    Told(Vec<u8>),
}

/// A name's place.
#[derive(Clone, Debug, PartialEq, Eq)]
pub struct Kept {
    pub stored: Option<u64>,
    pub generation: u64,
    pub is_held: bool,
    /// The client's word whose it is, where that is known.
    pub owner: Option<String>,
}

impl Place {
    /// As far as a note has room for it.
    pub fn shortened(host: &str, folder: &[u8]) -> Place {
        let host =
            host.bytes()
                .take(LONGEST_HOST)
                .map(|byte| if byte.is_ascii_graphic() && byte != b'/' { byte } else { b'_' });
        let folder = &folder[folder.len().saturating_sub(LONGEST_FOLDER)..];
        let host = host.map(char::from).collect();
        Place { host, folder: String::from_utf8_lossy(folder).into_owned() }
    }
}

impl Note {
    /// The note of a line with its newline.
    pub fn of(line: &[u8]) -> Option<Note> {
        let word = line.strip_prefix(CARRIER)?.strip_suffix(b"\n")?;
        let bytes = unspell(std::str::from_utf8(word).ok()?)?;
        if let Some(piece) = bytes.strip_prefix(TOLD).filter(|piece| !piece.is_empty()) {
            return Some(Note::Told(piece.to_vec()));
        }
        let text = String::from_utf8(bytes).ok()?;
        let (kind, rest) = text.split_once('/').unwrap_or((text.as_str(), ""));
        let is_word = !rest.is_empty() && !rest.contains('/');
        match kind {
            "database" if is_word => Some(Note::Database(rest.into())),
            "place" => {
                let (host, folder) = rest.split_once('/')?;
                Some(Note::Place(Place { host: host.into(), folder: folder.into() }))
            }
            "generation" => number_in(rest.as_bytes()).map(Note::Generation),
            "name" => name_in(rest),
            "noname" if is_word => Some(Note::NoName(rest.into())),
            "key" => Key::in_words(rest).map(Note::Key),
            _ => None,
        }
    }

    fn words(&self) -> Vec<u8> {
        let words = match self {
            Note::Database(identity) => format!("database/{identity}"),
            Note::Place(Place { host, folder }) => format!("place/{host}/{folder}"),
            Note::Generation(generation) => format!("generation/{generation}"),
            Note::Name { name, kept: Kept { stored, generation, is_held, owner } } => {
                let stored = stored.map_or("none".to_string(), |stored| stored.to_string());
                let owner = owner.iter().filter(|owner| owner.len() <= LONGEST_OWNER);
                let owner: String = owner.map(|owner| format!("/{owner}")).collect();
                format!("name/{name}/{stored}/{generation}/{}{owner}", u8::from(*is_held))
            }
            Note::NoName(name) => format!("noname/{name}"),
            Note::Key(key) => key.words(),
            Note::Told(piece) => return [TOLD, piece].concat(),
        };
        words.into_bytes()
    }
}

fn name_in(rest: &str) -> Option<Note> {
    let mut words = rest.splitn(5, '/');
    let name = words.next().filter(|name| !name.is_empty())?.to_string();
    let stored = match words.next()? {
        "none" => None,
        word => Some(number_in(word.as_bytes())?),
    };
    let generation = number_in(words.next()?.as_bytes())?;
    let is_held = match words.next()? {
        "0" => false,
        "1" => true,
        _ => return None,
    };
    // Before there were owners it ended here.
    let owner = words.next().map(str::to_string);
    Some(Note::Name { name, kept: Kept { stored, generation, is_held, owner } })
}

/// The line, with its newline.
impl fmt::Display for Note {
    fn fmt(&self, f: &mut fmt::Formatter<'_>) -> fmt::Result {
        let carrier = std::str::from_utf8(CARRIER).map_err(|_| fmt::Error)?;
        writeln!(f, "{carrier}{}", Spelled(&self.words()))
    }
}

#[cfg(test)]
mod tests {
    use super::*;

    #[test]
    fn notes_come_back() {
        let kept = Kept { stored: Some(19), generation: 7, is_held: true, owner: None };
        let owned = |owner: &str| Kept { owner: Some(owner.into()), ..kept.clone() };
        let longest_name = Kept { stored: Some(u64::MAX), generation: u64::MAX, ..owned(&"o".repeat(LONGEST_OWNER)) };
        let longest = Place::shortened(&"h".repeat(100), "/\u{e4} b/".repeat(100).as_bytes());
        for note in [
            Note::Database("1914d5866a08f6aa".into()),
            Note::Place(Place { host: "alder".into(), folder: "/srv/my data".into() }),
            Note::Place(longest),
            Note::Generation(7),
            Note::Name { name: "a.b-c_9".into(), kept: kept.clone() },
            Note::Name { name: "a".into(), kept: owned("token/a/b \u{e4}") },
            Note::Name { name: "n".repeat(64), kept: longest_name },
            Note::Name { name: "a".into(), kept: Kept { stored: None, generation: 0, is_held: false, owner: None } },
            Note::NoName("a".into()),
            Note::Key(Key::in_words(&format!("17/{:032x}/{:032x}/9/put", 1, u128::MAX)).expect("a key")),
            Note::Told(b"{\"a\": \xff}\n".to_vec()),
        ] {
            let line = note.to_string();
            assert_eq!(Note::of(line.as_bytes()), Some(note), "{line}");
            assert_eq!(line.matches(['\n', ' ']).count(), 4, "{line}");
        }
    }

    #[test]
    fn other_lines_are_no_notes() {
        for words in [
            "",
            "end",
            "generation/07",
            "generation/x",
            "name/a/1/2",
            "name/a/1/2/3",
            "name//1/2/1",
            "noname/",
            "database/",
            "database/a/b",
            "place/host",
            "told/",
            "key/1/00000000000000000000000000000001/00000000000000000000000000000002/9",
            "key/1/00000000000000000000000000000001/00000000000000000000000000000002/9/0",
            "key/1/00000000000000000000000000000001/00000000000000000000000000000002/9/other",
            "key/1/00000000000000000000000000000001/00000000000000000000000000000002/9/put/",
            "key/1/0000000000000000000000000000001/00000000000000000000000000000002/9/put",
            "key/1/0000000000000000000000000000000G/00000000000000000000000000000002/9/put",
            "key/01/00000000000000000000000000000001/00000000000000000000000000000002/9/put",
            "batch/1/0/00000000/0/00000000",
        ] {
            let line = [CARRIER, words.as_bytes(), b"\n"].concat();
            assert_eq!(Note::of(&line), None, "{words}");
        }
        assert_eq!(Note::of(b"0 readat 7 noname/a\n"), None);
        assert_eq!(Note::of(&[CARRIER, b"noname/a"].concat()), None);
    }
}
