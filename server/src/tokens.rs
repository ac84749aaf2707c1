//! The tokens that requests may show, and what each may do.
//!
//! `gate` asks for one at each request. They stand in a file, which is read at the start, and once more at SIGHUP.
//!
//! ```text
//! --token FILE      its first line is the one token, which may do everything
//! --tokens FILE     # a line a token: a name, its rights, the span of its keys, the token
//!                   dashboard read - - 0f3a9c..
//!                   orders read,write order/ order0 77b1e4..
//!                   cache read,consume price/ price0 5cd102..
//! ```
//!
//! The bounds are spelled as in a command, `-` for none.
//!
//! 1. A token is 16 to 4096 bytes of printable ASCII without a space, and no two are the same.
//! 2. How long a comparison takes tells nothing of a token but its length.
//! 3. A file that can't be read anew, or has a fault, changes nothing: the tokens that stand go on.

use crate::gate::{Keys, Right, Who};
use crate::options::TokenFile;
use std::fmt;
use std::fs::{self, File};
use std::io::{self, Read};
use std::os::unix::fs::MetadataExt;
use std::path::Path;
use std::sync::{Arc, PoisonError, RwLock};
use subtle::ConstantTimeEq;

const SHORTEST: usize = 16;
const LONGEST: usize = 4096;
const MOST_BYTES: u64 = 1 << 20; // of the file
const OTHERS: u32 = 0o007; // the bits of a file's mode by which others than its owner and group may use it

/// What is wrong with a file of tokens.
#[derive(Debug)]
pub enum Fault {
    Unreadable(TokenFile, io::Error),
    TooMuch(TokenFile),
    Line(TokenFile, usize, LineFault),
}

/// What is wrong with one line.
#[derive(Clone, Copy, Debug, PartialEq, Eq)]
pub enum LineFault {
    Short,
    Long,
    Byte,
    Words,
    Right,
    Bound,
    Twice,
    None,
}

impl fmt::Display for Fault {
    fn fmt(&self, f: &mut fmt::Formatter<'_>) -> fmt::Result {
        match self {
            Fault::Unreadable(file, error) => write!(f, "{}: {error}", named(file)),
            Fault::TooMuch(file) => write!(f, "{}: it has more than {MOST_BYTES} bytes", named(file)),
            Fault::Line(file @ TokenFile::One(_), _, LineFault::Short) => {
                write!(f, "{}: the first line has to have {SHORTEST} bytes at least", named(file))
            }
            Fault::Line(file, line, fault) => write!(f, "{} line {line}: {fault}", named(file)),
        }
    }
}

/// A file with the option that names it.
fn named(file: &TokenFile) -> String {
    match file {
        TokenFile::One(path) => format!("--token {}", path.display()),
        TokenFile::Several(path) => format!("--tokens {}", path.display()),
    }
}

impl fmt::Display for LineFault {
    fn fmt(&self, f: &mut fmt::Formatter<'_>) -> fmt::Result {
        f.write_str(match self {
            LineFault::Short => "a token has 16 bytes at least",
            LineFault::Long => "a token has 4096 bytes at most",
            LineFault::Byte => "a token has printable ASCII and no space",
            LineFault::Words => "a line is NAME RIGHTS LO HI TOKEN",
            LineFault::Right => "the rights are read, write, consume and operate, with commas between them",
            LineFault::Bound => "a bound is spelled as in a command, or - for none",
            LineFault::Twice => "the token stands above already",
            LineFault::None => "there is no token",
        })
    }
}

impl std::error::Error for Fault {}

#[derive(Debug)]
struct Token {
    secret: Vec<u8>,
    who: Who,
}

/// The tokens of a file, as it was read last.
#[derive(Debug)]
pub struct Tokens {
    file: TokenFile,
    read: RwLock<Arc<[Token]>>,
}

impl Tokens {
    pub fn read(file: &TokenFile) -> Result<Tokens, Fault> {
        Ok(Tokens { read: RwLock::new(in_file(file)?.into()), file: file.clone() })
    }

    /// Reads the file anew. After a fault the tokens are as they were.
    pub fn reload(&self) -> Result<usize, Fault> {
        let tokens: Arc<[Token]> = in_file(&self.file)?.into();
        let count = tokens.len();
        *self.read.write().unwrap_or_else(PoisonError::into_inner) = tokens;
        Ok(count)
    }

    /// Who has shown this token, if anybody has it.
    pub fn who(&self, shown: &[u8]) -> Option<Who> {
        let tokens = self.read.read().unwrap_or_else(PoisonError::into_inner).clone();
        // All are compared, so that the time doesn't tell which one was near.
        tokens.iter().fold(None, |found, token| match bool::from(token.secret.as_slice().ct_eq(shown)) {
            true => Some(token.who.clone()),
            false => found,
        })
    }

    /// Whether others than the file's owner and group may read or change it.
    pub fn is_open_to_others(&self) -> bool {
        fs::metadata(self.path()).is_ok_and(|it| it.mode() & OTHERS != 0)
    }

    pub fn path(&self) -> &Path {
        let (TokenFile::One(path) | TokenFile::Several(path)) = &self.file;
        path
    }
}

fn in_file(file: &TokenFile) -> Result<Vec<Token>, Fault> {
    let text = text_of(file)?;
    let read = match file {
        TokenFile::One(_) => one(&text).map_err(|fault| (1, fault)),
        TokenFile::Several(_) => several(&text),
    };
    read.map_err(|(line, fault)| Fault::Line(file.clone(), line, fault))
}

fn text_of(file: &TokenFile) -> Result<Vec<u8>, Fault> {
    let (TokenFile::One(path) | TokenFile::Several(path)) = file;
    let mut text = Vec::new();
    let read = File::open(path).and_then(|file| file.take(MOST_BYTES + 1).read_to_end(&mut text));
    match read {
        Ok(_) if text.len() as u64 > MOST_BYTES => Err(Fault::TooMuch(file.clone())),
        Ok(_) => Ok(text),
        Err(error) => Err(Fault::Unreadable(file.clone(), error)),
    }
}

/// The token of the first line, which may do everything.
fn one(text: &[u8]) -> Result<Vec<Token>, LineFault> {
    let line = text.split(|&byte| byte == b'\n').next().unwrap_or(&[]).trim_ascii();
    Ok(vec![Token { secret: secret(line)?, who: Who::anyone() }])
}

/// The tokens of lines, or the first line with a fault.
fn several(text: &[u8]) -> Result<Vec<Token>, (usize, LineFault)> {
    let mut tokens: Vec<Token> = Vec::new();
    for (at, line) in (1..).zip(text.split(|&byte| byte == b'\n')) {
        let line = line.trim_ascii();
        if line.is_empty() || line.starts_with(b"#") {
            continue;
        }
        let token = token_in(line).map_err(|fault| (at, fault))?;
        if tokens.iter().any(|other| other.secret == token.secret) {
            return Err((at, LineFault::Twice));
        }
        tokens.push(token);
    }
    if tokens.is_empty() {
        return Err((1, LineFault::None));
    }
    Ok(tokens)
}

fn token_in(line: &[u8]) -> Result<Token, LineFault> {
    let line = std::str::from_utf8(line).map_err(|_| LineFault::Byte)?;
    let words: Vec<&str> = line.split_ascii_whitespace().collect();
    let [name, rights, lo, hi, token] = words.as_slice() else { return Err(LineFault::Words) };
    let rights = rights.split(',').map(right).collect::<Result<Vec<Right>, LineFault>>()?;
    let hi = Some(bound(hi)?).filter(|bound| !bound.is_empty());
    let keys = Keys { lo: bound(lo)?, hi };
    Ok(Token { secret: secret(token.as_bytes())?, who: Who::of(name, &rights).with_keys(keys) })
}

fn right(word: &str) -> Result<Right, LineFault> {
    match word {
        "read" => Ok(Right::Read),
        "write" => Ok(Right::Write),
        "consume" => Ok(Right::Consume),
        "operate" => Ok(Right::Operate),
        _ => Err(LineFault::Right),
    }
}

fn bound(word: &str) -> Result<Vec<u8>, LineFault> {
    ripsawbean::unspell(word).ok_or(LineFault::Bound)
}

fn secret(token: &[u8]) -> Result<Vec<u8>, LineFault> {
    match token.len() {
        _ if !token.iter().all(u8::is_ascii_graphic) => Err(LineFault::Byte),
        length if length < SHORTEST => Err(LineFault::Short),
        length if length > LONGEST => Err(LineFault::Long),
        _ => Ok(token.to_vec()),
    }
}

#[cfg(test)]
mod tests {
    use super::*;
    use crate::testing::Dice;
    use std::path::PathBuf;

    const FIRST: &str = "0123456789abcdef";
    const SECOND: &str = "fedcba9876543210";

    fn one(text: &[u8]) -> Result<Tokens, Fault> {
        in_a_file(text, TokenFile::One)
    }

    fn in_a_file(text: &[u8], kind: fn(PathBuf) -> TokenFile) -> Result<Tokens, Fault> {
        let file = crate::testing::file(text);
        Tokens::read(&kind(file))
    }

    #[test]
    fn one_token_may_do_everything() {
        let tokens = one(format!("  {FIRST} \nnothing else is read\n").as_bytes()).expect("tokens");
        let who = tokens.who(FIRST.as_bytes()).expect("it is known");
        assert!([Right::Read, Right::Write, Right::Consume, Right::Operate].into_iter().all(|right| who.may(right)));
        assert!(who.keys().covers(b"", None));
        for other in ["", "0123456789abcde", "0123456789abcdeg", "0123456789abcdef0"] {
            assert!(tokens.who(other.as_bytes()).is_none(), "{other}");
        }
    }

    #[test]
    fn tokens_that_no_header_could_show_are_refused() {
        for (text, fault) in [
            (&b"short\n"[..], LineFault::Short),
            (b"0123456789abcde\n", LineFault::Short),
            (b"", LineFault::Short),
            (b"0123456789abcde\xc3\xa9", LineFault::Byte),
            (b"0123456789abc\0def", LineFault::Byte),
            (b"0123456789 abcdef", LineFault::Byte),
            (&[b'x'; 4097], LineFault::Long),
        ] {
            let found = one(text).expect_err("a fault");
            assert!(matches!(found, Fault::Line(_, 1, it) if it == fault), "{found}");
        }
        assert!(one(&[b'x'; 4096]).is_ok());
        assert!(matches!(Tokens::read(&TokenFile::One("/nothing/here".into())), Err(Fault::Unreadable(..))));
    }

    #[test]
    fn faults_are_sentences_with_the_option() {
        let told = |fault: Fault| {
            let told = fault.to_string();
            let path = told.split(' ').nth(1).expect("a file").trim_end_matches(':').to_string();
            told.replace(&path, "FILE")
        };
        let short = "--token FILE: the first line has to have 16 bytes at least";
        assert_eq!(told(one(b"short\n").expect_err("a fault")), short);
        let byte = "--token FILE line 1: a token has printable ASCII and no space";
        assert_eq!(told(one(b"0123456789abc\0def").expect_err("a fault")), byte);
        let several = in_a_file(b"\na read - -", TokenFile::Several).expect_err("a fault");
        assert_eq!(told(several), "--tokens FILE line 2: a line is NAME RIGHTS LO HI TOKEN");
        let missing = Tokens::read(&TokenFile::One("/nothing/here".into())).expect_err("a fault");
        assert_eq!(told(missing), "--token FILE: No such file or directory (os error 2)");
        let endless = Tokens::read(&TokenFile::One("/dev/zero".into())).expect_err("a fault");
        assert_eq!(told(endless), "--token FILE: it has more than 1048576 bytes");
    }

    #[test]
    fn a_file_that_others_can_read_is_seen() {
        use std::os::unix::fs::PermissionsExt;
        let file = crate::testing::file(FIRST.as_bytes());
        let tokens = Tokens::read(&TokenFile::One(file.clone())).expect("tokens");
        let mut is_open = |mode| {
            fs::set_permissions(&file, fs::Permissions::from_mode(mode)).expect("its mode is set");
            tokens.is_open_to_others()
        };
        assert_eq!([0o400, 0o440, 0o640].map(&mut is_open), [false; 3]);
        assert_eq!([0o644, 0o604, 0o602].map(&mut is_open), [true; 3]);
    }

    #[test]
    fn several_tokens_have_rights_and_spans() {
        let text = format!("# who may do what\n\nboard read - - {FIRST}\norders read,write order/ order0 {SECOND}\n");
        let tokens = in_a_file(text.as_bytes(), TokenFile::Several).expect("tokens");
        let board = tokens.who(FIRST.as_bytes()).expect("it is known");
        assert_eq!((board.name(), board.may(Right::Read), board.may(Right::Write)), ("board", true, false));
        let orders = tokens.who(SECOND.as_bytes()).expect("it is known");
        assert_eq!((orders.may(Right::Write), orders.may(Right::Operate)), (true, false));
        assert!(orders.keys().holds(b"order/7") && !orders.keys().holds(b"order0") && !orders.keys().holds(b"a"));
    }

    #[test]
    fn the_first_line_with_a_fault_is_told() {
        for (text, line, fault) in [
            (format!("a read - - {FIRST}\na read - {SECOND}"), 2, LineFault::Words),
            (format!("a read,see - - {FIRST}"), 1, LineFault::Right),
            (format!("\na read %41 - {FIRST}"), 2, LineFault::Bound),
            (format!("a read - - {FIRST}\nb read - - {FIRST}"), 2, LineFault::Twice),
            ("# nobody\n".to_string(), 1, LineFault::None),
        ] {
            assert_eq!(several(text.as_bytes()).expect_err("a fault"), (line, fault), "{text}");
        }
    }

    #[test]
    fn a_file_with_a_fault_changes_nothing() {
        let file = crate::testing::file(FIRST.as_bytes());
        let tokens = Tokens::read(&TokenFile::One(file.clone())).expect("tokens");
        fs::write(&file, "short").expect("it is written");
        assert!(tokens.reload().is_err() && tokens.who(FIRST.as_bytes()).is_some());
        fs::write(&file, SECOND).expect("it is written");
        assert_eq!(tokens.reload().expect("tokens"), 1);
        assert!(tokens.who(FIRST.as_bytes()).is_none() && tokens.who(SECOND.as_bytes()).is_some());
    }

    #[test]
    fn any_bytes_are_tokens_or_a_fault() {
        let mut dice = Dice::new(7);
        let words: [&[u8]; 9] = [b"a", b"read", b",", b" ", b"-", b"%00", b"\n", FIRST.as_bytes(), b"\xff"];
        dice.each(|dice| {
            if let Ok(tokens) = several(&dice.some(&words, 12)) {
                assert!(tokens.iter().all(|token| token.secret.len() >= SHORTEST));
            }
        });
    }
}
