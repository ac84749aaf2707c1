//! What whoever starts the server may choose.
//!
//! Each option has one row in `TABLE`: its name, what it may be, its default, and what it is. `main` asks for `read`
//! once, before anything else is done. A wrong option ends the program with status 2 and a sentence.
//!
//! ```text
//! ripsawbean-server --port 8000                 the command line comes first,
//! RIPSAWBEAN_MAX_LAG=5000 ripsawbean-server     then the environment,
//! max-lag = 5000                                then a line of the file that --config names,
//! ```
//!
//! and then the default.
//!
//! 1. Each value lies within its range, wherever it was said.
//! 2. An address that others can reach has a token file.
//! 3. Files are named here, and read by the modules that need them.

mod sources;

use crate::log::Level;
use sources::{Given, Place};
use std::ffi::OsString;
use std::fmt::{self, Display, Write};
use std::net::{IpAddr, Ipv4Addr};
use std::path::PathBuf;
use std::str::FromStr;
use std::time::Duration;

const LONGEST: f64 = 1e9; // seconds

/// What an option may be, and its default.
enum Kind {
    Whole {
        default: u64,
        least: u64,
        most: u64,
    },
    Seconds {
        default: f64,
        least: f64,
    },
    Word(&'static str),
    File,
    /// It may be given several times.
    Names,
    /// `yes` or `no`, for which `true` and `false`, and `1` and `0`, are taken too.
    Switch,
}

struct Row {
    name: &'static str,
    kind: Kind,
    meaning: &'static str,
}

const fn whole(name: &'static str, default: u64, least: u64, most: u64, meaning: &'static str) -> Row {
    Row { name, kind: Kind::Whole { default, least, most }, meaning }
}

const fn seconds(name: &'static str, default: f64, least: f64, meaning: &'static str) -> Row {
    Row { name, kind: Kind::Seconds { default, least }, meaning }
}

const fn file(name: &'static str, meaning: &'static str) -> Row {
    Row { name, kind: Kind::File, meaning }
}

const MOST: u64 = 1 << 62;
const AUTO: &str = "auto";
/// Bytes of the longest row: its key and its value, and 17 more.
pub const LONGEST_ROW: u64 = 17 + 256 + 65_536;

const TABLE: [Row; 39] = [
    whole("port", 7077, 0, 65535, "the port; 0 takes a free one, which the first line of the output names"),
    whole("ring", 1024, 1, 65536, "without effect: feeds once kept so many rows at hand"),
    whole("max-lag", 1_000_000, 1, MOST, "rows closed above a reader beyond which nothing is held for it any longer"),
    whole("max-lag-bytes", 1 << 30, 1, MOST, "bytes of the lines that wrote them, beyond which the same holds"),
    whole("ahead", 1_000_000, 1, MOST, "how far above all others an explicit timestamp may lie"),
    whole("keep", 10_000, 0, MOST, "events kept for GET /transcript"),
    whole("keep-bytes", 64 << 20, 0, MOST, "bytes of text kept for it"),
    whole("max-message", 1 << 20, 1, 1 << 30, "bytes of a message or body"),
    whole("max-reply", 8 << 20, 1, 1 << 30, "bytes of answers to one message beyond which no further call is made"),
    whole("max-answer", 4 << 20, LONGEST_ROW, 1 << 30, "bytes of rows or messages that no answer is longer than"),
    whole("max-connections", 512, 8, 1 << 20, "connections at once"),
    whole("max-feeds", 256, 1, 1 << 20, "streams at once"),
    whole("max-consumers", 1024, 1, 1 << 20, "names"),
    whole("max-held", 1000, 1, 1 << 20, "transactions, protections and feeds that one session may hold, of each"),
    Row {
        name: "max-memory",
        kind: Kind::Word(AUTO),
        meaning: "resident bytes above which puts are refused; auto: as the system's limit allows; 0: no limit",
    },
    whole(
        "checkpoint-bytes",
        64 << 20,
        1,
        MOST,
        "bytes of the journal behind a checkpoint at which the next one is made",
    ),
    seconds("close-every", 0.0, 0.0, "pause before decided transactions are closed; 0 closes at once"),
    seconds("max-age", 30.0, 0.01, "age at which an undecided transaction is aborted"),
    seconds("history", 5.0, 0.0, "how long a timestamp can be read after it was closed"),
    seconds("heartbeat", 20.0, 0.1, "how often a session's connection is asked whether it is there"),
    seconds(
        "lease",
        2.0,
        0.2,
        "how long it answers behind a write that a PostgreSQL has confirmed, and who follows waits",
    ),
    seconds("patience", 30.0, 0.1, "how long an answer waits for a reader that takes nothing"),
    seconds("seat-age", 0.0, 0.0, "how long a session without a message keeps its seat; 0: for ever"),
    seconds("remember", 60.0, 0.0, "how long the answer to an Idempotency-Key is remembered"),
    seconds("drain", 0.0, 0.0, "how long undecided transactions may go on when the server is told to end"),
    Row { name: "address", kind: Kind::Word("127.0.0.1"), meaning: "the address; another one needs a token" },
    Row { name: "host", kind: Kind::Names, meaning: "a further name by which the server may be called" },
    file("data", "the folder, or the postgresql:// address, that keeps the database; nothing is kept without it"),
    file("restore", "a file that GET /dump gave: a new database begins with it, in an empty --data"),
    Row {
        name: "moved",
        kind: Kind::Switch,
        meaning: "the folder of --data was moved, and nobody serves the other one",
    },
    file("token", "a file whose first line every request has to show"),
    file("tokens", "a file with a line NAME RIGHTS LO HI TOKEN for each of several tokens"),
    file("tls-cert", "the certificate and those above it, as PEM; needs --tls-key"),
    file("tls-key", "the certificate's key, as PEM"),
    Row { name: "log-level", kind: Kind::Word("warn"), meaning: "error, warn, info or debug" },
    Row { name: "log-json", kind: Kind::Switch, meaning: "lines of the log are JSON" },
    file("config", "a file with a line NAME = VALUE for each option"),
    Row { name: "help", kind: Kind::Switch, meaning: "shows this, and ends" },
    Row { name: "version", kind: Kind::Switch, meaning: "shows the version, and ends" },
];

fn row_of(name: &str) -> Option<&'static Row> {
    TABLE.iter().find(|row| row.name == name)
}

#[derive(Debug, Clone, PartialEq)]
pub struct Options {
    pub port: u16,
    pub address: IpAddr,
    pub host: Vec<String>,
    pub max_lag: u64,
    pub max_lag_bytes: u64,
    pub ahead: u64,
    pub keep: usize,
    pub keep_bytes: usize,
    pub max_message: usize,
    pub max_reply: usize,
    pub max_answer: usize,
    pub max_connections: usize,
    pub max_feeds: usize,
    pub max_consumers: usize,
    pub max_held: usize,
    /// Bytes, 0 for no limit. None where the system's limit says it.
    pub max_memory: Option<u64>,
    pub checkpoint_bytes: u64,
    pub data: Option<PathBuf>,
    pub restore: Option<PathBuf>,
    pub moved: bool,
    pub close_every: Duration,
    pub max_age: Duration,
    pub history: Duration,
    pub heartbeat: Duration,
    pub lease: Duration,
    pub patience: Duration,
    /// Zero: for ever.
    pub seat_age: Duration,
    pub remember: Duration,
    pub drain: Duration,
    pub tokens: Option<TokenFile>,
    pub tls: Option<TlsFiles>,
    pub log_level: Level,
    pub log_json: bool,
}

/// Where tokens are read.
#[derive(Debug, Clone, PartialEq, Eq)]
pub enum TokenFile {
    /// Its first line is the token.
    One(PathBuf),
    /// Each line is a token with its rights.
    Several(PathBuf),
}

#[derive(Debug, Clone, PartialEq, Eq)]
pub struct TlsFiles {
    pub certificate: PathBuf,
    pub key: PathBuf,
}

/// What the command line asks for.
#[derive(Debug, Clone, PartialEq)]
pub enum Asked {
    Serve(Box<Options>),
    Help(String),
    Version(String),
}

/// What is wrong with an option: a sentence.
#[derive(Debug, Clone, PartialEq, Eq)]
pub enum Fault {
    Unknown(String),
    /// A word that is no text.
    NoText(String),
    NoValue(&'static str),
    Twice(&'static str),
    NoRoom {
        place: Place,
        name: &'static str,
        word: String,
        least: String,
        most: String,
    },
    NoWord {
        place: Place,
        name: &'static str,
        word: String,
        wanted: &'static str,
    },
    NoAddress(String),
    NeedsToken(IpAddr),
    NeedsData,
    TwoTokens,
    HalfTls,
    Unreadable {
        file: PathBuf,
        why: String,
    },
    Line {
        file: PathBuf,
        line: usize,
        why: String,
    },
}

impl Display for Fault {
    fn fmt(&self, out: &mut fmt::Formatter) -> fmt::Result {
        match self {
            Fault::Unknown(word) => write!(out, "unrecognized arguments: {word}"),
            Fault::NoText(word) => write!(out, "{word} is no UTF-8"),
            Fault::NoValue(name) => write!(out, "argument --{name}: expected one argument"),
            Fault::Twice(name) => write!(out, "argument --{name}: it is given twice"),
            Fault::NoRoom { place, name, word, least, most } => {
                write!(out, "{}: {word} is not {least} to {most}", place.named(name))
            }
            Fault::NoWord { place, name, word, wanted } => {
                write!(out, "{}: {word:?} is not {wanted}", place.named(name))
            }
            Fault::NoAddress(word) => write!(out, "--address {word} is no address"),
            Fault::NeedsToken(address) => {
                write!(out, "--address {address} can be reached by others: it needs --token FILE")
            }
            Fault::NeedsData => out.write_str("--restore and --moved say something of --data FOLDER: give it too"),
            Fault::TwoTokens => out.write_str("--token and --tokens are two ways to say it: give one of them"),
            Fault::HalfTls => out.write_str("--tls-cert and --tls-key belong together: give both"),
            Fault::Unreadable { file, why } => write!(out, "--config {}: {why}", file.display()),
            Fault::Line { file, line, why } => write!(out, "--config {} line {line}: {why}", file.display()),
        }
    }
}

impl std::error::Error for Fault {}

/// Reads the command line, behind the program's name, and the environment, and the file that they name.
pub fn read(words: impl Iterator<Item = OsString>) -> Result<Asked, Fault> {
    asked(&sources::texts(words)?, |name| std::env::var_os(name), sources::content)
}

fn asked(
    words: &[String],
    environment: impl Fn(&str) -> Option<OsString>,
    content: impl Fn(&std::path::Path) -> Result<String, Fault>,
) -> Result<Asked, Fault> {
    let mut given = Given::of_words(words)?;
    if given.switch("help")? {
        return Ok(Asked::Help(help()));
    }
    if given.switch("version")? {
        return Ok(Asked::Version(format!("ripsawbean-server {}\n", env!("CARGO_PKG_VERSION"))));
    }
    given.add(Given::of_environment(environment)?);
    if let Some(file) = given.file("config")? {
        let text = content(&file)?;
        given.add(Given::of_file(&file, &text)?);
    }
    options(&given).map(|options| Asked::Serve(Box::new(options)))
}

fn options(given: &Given) -> Result<Options, Fault> {
    // It is looked at, and that is all.
    let _ring: u32 = given.whole("ring")?;
    let options = Options {
        port: given.whole("port")?,
        address: address(given)?,
        host: given.names("host")?,
        max_lag: given.whole("max-lag")?,
        max_lag_bytes: given.whole("max-lag-bytes")?,
        ahead: given.whole("ahead")?,
        keep: given.whole("keep")?,
        keep_bytes: given.whole("keep-bytes")?,
        max_message: given.whole("max-message")?,
        max_reply: given.whole("max-reply")?,
        max_answer: given.whole("max-answer")?,
        max_connections: given.whole("max-connections")?,
        max_feeds: given.whole("max-feeds")?,
        max_consumers: given.whole("max-consumers")?,
        max_held: given.whole("max-held")?,
        max_memory: max_memory(given)?,
        checkpoint_bytes: given.whole("checkpoint-bytes")?,
        data: given.file("data")?,
        restore: given.file("restore")?,
        moved: given.switch("moved")?,
        close_every: given.seconds("close-every")?,
        max_age: given.seconds("max-age")?,
        history: given.seconds("history")?,
        heartbeat: given.seconds("heartbeat")?,
        lease: given.seconds("lease")?,
        patience: given.seconds("patience")?,
        seat_age: given.seconds("seat-age")?,
        remember: given.seconds("remember")?,
        drain: given.seconds("drain")?,
        tokens: token_file(given)?,
        tls: tls_files(given)?,
        log_level: given.word("log-level", "error, warn, info or debug")?,
        log_json: given.switch("log-json")?,
    };
    if !options.address.to_canonical().is_loopback() && options.tokens.is_none() {
        return Err(Fault::NeedsToken(options.address));
    }
    if options.data.is_none() && (options.restore.is_some() || options.moved) {
        return Err(Fault::NeedsData);
    }
    Ok(options)
}

fn address(given: &Given) -> Result<IpAddr, Fault> {
    match given.one("address") {
        None => Ok(IpAddr::V4(Ipv4Addr::LOCALHOST)),
        Some((_, word)) => IpAddr::from_str(word).map_err(|_| Fault::NoAddress(word.to_string())),
    }
}

fn max_memory(given: &Given) -> Result<Option<u64>, Fault> {
    match given.one("max-memory") {
        None | Some((_, AUTO)) => Ok(None),
        Some(_) => given.word::<MaxMemory>("max-memory", "auto or a number of bytes").map(|MaxMemory(most)| Some(most)),
    }
}

struct MaxMemory(u64);

impl FromStr for MaxMemory {
    type Err = ();

    fn from_str(word: &str) -> Result<MaxMemory, ()> {
        word.parse().ok().filter(|most| *most <= MOST).map(MaxMemory).ok_or(())
    }
}

fn token_file(given: &Given) -> Result<Option<TokenFile>, Fault> {
    match (given.file("token")?, given.file("tokens")?) {
        (Some(_), Some(_)) => Err(Fault::TwoTokens),
        (one, several) => Ok(one.map(TokenFile::One).or(several.map(TokenFile::Several))),
    }
}

fn tls_files(given: &Given) -> Result<Option<TlsFiles>, Fault> {
    match (given.file("tls-cert")?, given.file("tls-key")?) {
        (Some(certificate), Some(key)) => Ok(Some(TlsFiles { certificate, key })),
        (None, None) => Ok(None),
        _ => Err(Fault::HalfTls),
    }
}

fn help() -> String {
    let mut text = String::from("usage: ripsawbean-server [--NAME VALUE ..]\n\n");
    text.push_str("Serves one Ripsawbean database over HTTP.\n\n");
    for row in &TABLE {
        let (value, default) = match row.kind {
            Kind::Whole { default, .. } => (" N", format!(" ({default})")),
            Kind::Seconds { default, .. } => (" S", format!(" ({default})")),
            Kind::Word(default) => (" WORD", format!(" ({default})")),
            Kind::File => (" FILE", String::new()),
            Kind::Names => (" NAME", String::new()),
            Kind::Switch => ("", String::new()),
        };
        // Writing to a string can't fail.
        let _ = writeln!(text, "  {:<24}{}{default}", format!("--{}{value}", row.name), row.meaning);
    }
    text.push_str("\nN is a whole number, S seconds. An option that the command line leaves out is taken from the\n");
    text.push_str("environment (RIPSAWBEAN_MAX_LAG for --max-lag), then from the file of --config. There a\n");
    text.push_str("switch is yes or no. Each option but --host is given once in a place.\n");
    text
}

#[cfg(test)]
mod tests;
