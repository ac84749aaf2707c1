//! The three places where an option may be given: the command line, the environment, and a file.
//!
//! Each gives a `Given`: words by an option's name, with the place where they stand, for the sentence that refuses
//! them. A word becomes a value here too, because its range belongs to its name.
//!
//! 1. Each name in a `Given` is one of the table.
//! 2. Only `host` has more than one word: each other option is given once in a place, so that none is overlooked.

use super::{row_of, Fault, Kind, Row, LONGEST, TABLE};
use std::collections::HashMap;
use std::ffi::OsString;
use std::io::Read;
use std::path::{Path, PathBuf};
use std::str::FromStr;
use std::time::Duration;

const LARGEST_FILE: u64 = 1 << 20; // bytes

/// Where a word stands.
#[derive(Debug, Clone, PartialEq, Eq)]
pub enum Place {
    CommandLine,
    Environment,
    File { file: PathBuf, line: usize },
}

impl Place {
    /// How an option is called there.
    pub fn named(&self, name: &str) -> String {
        match self {
            Place::CommandLine => format!("argument --{name}"),
            Place::Environment => variable(name),
            Place::File { file, line } => format!("--config {} line {line}: {name}", file.display()),
        }
    }
}

#[derive(Default)]
pub struct Given {
    found: HashMap<&'static str, (Place, Vec<String>)>,
}

impl Given {
    pub fn of_words(words: &[String]) -> Result<Given, Fault> {
        let mut given = Given::default();
        let mut rest = words.iter();
        while let Some(word) = rest.next() {
            let (name, joined) = match word.split_once('=') {
                Some((name, value)) => (name, Some(value.to_string())),
                None => (word.as_str(), None),
            };
            let name = if name == "-h" { "--help" } else { name };
            let row = name.strip_prefix("--").and_then(row_of).ok_or_else(|| Fault::Unknown(word.clone()))?;
            let value = match (joined, &row.kind) {
                (Some(value), _) => value,
                (None, Kind::Switch) => "yes".to_string(),
                (None, _) => rest.next().cloned().ok_or(Fault::NoValue(row.name))?,
            };
            if given.has_once(row) {
                return Err(Fault::Twice(row.name));
            }
            given.say(row.name, Place::CommandLine, value);
        }
        Ok(given)
    }

    /// An empty variable is none.
    pub fn of_environment(environment: impl Fn(&str) -> Option<OsString>) -> Result<Given, Fault> {
        let mut given = Given::default();
        for row in TABLE.iter().filter(|row| !is_only_a_word(row.name)) {
            let name = variable(row.name);
            let Some(value) = environment(&name).filter(|value| !value.is_empty()) else { continue };
            let value = value.into_string().map_err(|_| Fault::NoText(name))?;
            match row.kind {
                Kind::Names => {
                    value.split_whitespace().for_each(|one| given.say(row.name, Place::Environment, one.into()))
                }
                _ => given.say(row.name, Place::Environment, value),
            }
        }
        Ok(given)
    }

    pub fn of_file(file: &Path, text: &str) -> Result<Given, Fault> {
        let mut given = Given::default();
        for (line, content) in (1..).zip(text.lines()) {
            let content = content.trim();
            if content.is_empty() || content.starts_with('#') {
                continue;
            }
            let fault = |why: String| Fault::Line { file: file.to_path_buf(), line, why };
            let (name, value) = content.split_once('=').ok_or_else(|| fault("this is no NAME = VALUE".into()))?;
            let (name, value) = (name.trim(), value.trim());
            let row = row_of(name).filter(|row| !is_only_a_word(row.name) && row.name != "config");
            let row = row.ok_or_else(|| fault(format!("there is no option {name:?} of a file")))?;
            if given.has_once(row) {
                return Err(fault(format!("{name} is given twice")));
            }
            given.say(row.name, Place::File { file: file.to_path_buf(), line }, value.to_string());
        }
        Ok(given)
    }

    /// Takes from `other` what isn't given here.
    pub fn add(&mut self, other: Given) {
        for (name, found) in other.found {
            self.found.entry(name).or_insert(found);
        }
    }

    /// Whether an option is given that may be given once.
    fn has_once(&self, row: &Row) -> bool {
        self.found.contains_key(row.name) && !matches!(row.kind, Kind::Names)
    }

    fn say(&mut self, name: &'static str, place: Place, word: String) {
        self.found.entry(name).or_insert((place, Vec::new())).1.push(word);
    }

    pub fn one(&self, name: &str) -> Option<(&Place, &str)> {
        let (place, words) = self.found.get(name)?;
        Some((place, words.last()?))
    }

    pub fn whole<T: TryFrom<u64>>(&self, name: &'static str) -> Result<T, Fault> {
        let Some(Kind::Whole { default, least, most }) = row_of(name).map(|row| &row.kind) else {
            unreachable!("--{name} is a whole number");
        };
        let found = self.one(name);
        let number = match found {
            None => Some(*default),
            Some((_, word)) => word.parse().ok().filter(|number| (least..=most).contains(&number)),
        };
        let narrow = number.and_then(|number| T::try_from(number).ok());
        narrow.ok_or_else(|| no_room(name, found, least.to_string(), most.to_string()))
    }

    pub fn seconds(&self, name: &'static str) -> Result<Duration, Fault> {
        let Some(Kind::Seconds { default, least }) = row_of(name).map(|row| &row.kind) else {
            unreachable!("--{name} is in seconds");
        };
        let found = self.one(name);
        let number = match found {
            None => Some(*default),
            Some((_, word)) => f64::from_str(word).ok().filter(|number| (*least..=LONGEST).contains(number)),
        };
        let duration = number.map(Duration::from_secs_f64);
        duration.ok_or_else(|| no_room(name, found, least.to_string(), LONGEST.to_string()))
    }

    pub fn word<T: FromStr>(&self, name: &'static str, wanted: &'static str) -> Result<T, Fault> {
        let Some(Kind::Word(default)) = row_of(name).map(|row| &row.kind) else {
            unreachable!("--{name} is a word");
        };
        let (place, word) = self.one(name).unwrap_or((&Place::CommandLine, default));
        word.parse().map_err(|_| no_word(place, name, word, wanted))
    }

    pub fn switch(&self, name: &'static str) -> Result<bool, Fault> {
        match self.one(name) {
            None | Some((_, "no" | "false" | "0")) => Ok(false),
            Some((_, "yes" | "true" | "1")) => Ok(true),
            Some((place, word)) => Err(no_word(place, name, word, "yes or no")),
        }
    }

    pub fn file(&self, name: &'static str) -> Result<Option<PathBuf>, Fault> {
        match self.one(name) {
            None => Ok(None),
            Some((place, "")) => Err(no_word(place, name, "", "a file")),
            Some((_, word)) => Ok(Some(PathBuf::from(word))),
        }
    }

    pub fn names(&self, name: &'static str) -> Result<Vec<String>, Fault> {
        let Some((place, words)) = self.found.get(name) else { return Ok(Vec::new()) };
        match words.iter().find(|word| !is_host(word)) {
            Some(word) => Err(no_word(place, name, word, "a name as a browser's Host says it")),
            None => Ok(words.clone()),
        }
    }
}

fn no_room(name: &'static str, found: Option<(&Place, &str)>, least: String, most: String) -> Fault {
    let (place, word) = found.unwrap_or((&Place::CommandLine, ""));
    Fault::NoRoom { place: place.clone(), name, word: word.to_string(), least, most }
}

fn no_word(place: &Place, name: &'static str, word: &str, wanted: &'static str) -> Fault {
    Fault::NoWord { place: place.clone(), name, word: word.to_string(), wanted }
}

fn is_host(word: &str) -> bool {
    !word.is_empty() && word.bytes().all(|byte| byte.is_ascii_alphanumeric() || b".-_:[]".contains(&byte))
}

/// These end the program, so they are no settings.
fn is_only_a_word(name: &str) -> bool {
    name == "help" || name == "version"
}

fn variable(name: &str) -> String {
    format!("RIPSAWBEAN_{}", name.to_ascii_uppercase().replace('-', "_"))
}

pub fn texts(words: impl Iterator<Item = OsString>) -> Result<Vec<String>, Fault> {
    words.map(|word| word.into_string().map_err(|word| Fault::NoText(word.to_string_lossy().into_owned()))).collect()
}

/// What stands in the file of `--config`.
pub fn content(file: &Path) -> Result<String, Fault> {
    let unreadable = |why: String| Fault::Unreadable { file: file.to_path_buf(), why };
    let mut bytes = Vec::new();
    let opened = std::fs::File::open(file).and_then(|one| one.take(LARGEST_FILE + 1).read_to_end(&mut bytes));
    opened.map_err(|error| unreadable(error.to_string()))?;
    if bytes.len() as u64 > LARGEST_FILE {
        return Err(unreadable(format!("it is longer than {LARGEST_FILE} bytes")));
    }
    String::from_utf8(bytes).map_err(|_| unreadable("it is no UTF-8".into()))
}
