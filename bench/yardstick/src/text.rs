//! Lines of a script into commands, and replies into lines of a transcript.
use crate::calls::{Cmd, Kind, Reply, Sink, Span};

#[derive(Clone, Copy, PartialEq)]
pub enum Fault {
    WordCount,
    UnknownCommand,
    Number,
    KeyLength,
    ValueLength,
    Session,
    NoNewline,
    LineTooLong,
    BadByte,
}

impl Fault {
    pub fn text(self) -> &'static str {
        match self {
            Fault::WordCount => "1 wordcount",
            Fault::UnknownCommand => "2 unknowncommand",
            Fault::Number => "3 number",
            Fault::KeyLength => "4 keylength",
            Fault::ValueLength => "5 valuelength",
            Fault::Session => "6 session",
            Fault::NoNewline => "7 nonewline",
            Fault::LineTooLong => "8 linetoolong",
            Fault::BadByte => "9 badbyte",
        }
    }
}

fn number(word: &[u8]) -> Option<u64> {
    if word.is_empty() || word.len() > 20 || (word[0] == b'0' && word.len() > 1) {
        return None;
    }
    let mut number = 0u64;
    for byte in word {
        let digit = byte.wrapping_sub(b'0');
        if digit > 9 {
            return None;
        }
        number = number.checked_mul(10)?.checked_add(u64::from(digit))?;
    }
    Some(number)
}

/// Scratch for words that are not their own spelling.
#[derive(Default)]
pub struct Decoder {
    a: Vec<u8>,
    b: Vec<u8>,
}

fn plain(b: u8) -> bool {
    (0x21..=0x7e).contains(&b) && b != b'%'
}

fn decode<'x>(word: &'x [u8], scratch: &'x mut Vec<u8>) -> Result<&'x [u8], Fault> {
    if word == b"-" {
        return Ok(&[]);
    }
    if !word.contains(&b'%') {
        return Ok(word);
    }
    if word == b"%2D" {
        return Ok(b"-");
    }
    scratch.clear();
    let mut at = 0;
    while at < word.len() {
        if word[at] != b'%' {
            scratch.push(word[at]);
            at += 1;
            continue;
        }
        if at + 2 >= word.len() {
            return Err(Fault::BadByte);
        }
        let byte = hex(word[at + 1])? * 16 + hex(word[at + 2])?;
        if plain(byte) {
            return Err(Fault::BadByte);
        }
        scratch.push(byte);
        at += 3;
    }
    Ok(scratch)
}

fn hex(byte: u8) -> Result<u8, Fault> {
    match byte {
        b'0'..=b'9' => Ok(byte - b'0'),
        b'A'..=b'F' => Ok(byte - b'A' + 10),
        _ => Err(Fault::BadByte),
    }
}

/// The words of a line, as many as a command can have, and how many there are. It is nothing where one is empty.
fn words(line: &[u8]) -> Result<Option<([&[u8]; 6], usize)>, Fault> {
    let mut words: [&[u8]; 6] = [&[]; 6];
    let (mut count, mut start, mut is_bad, mut has_empty) = (0, 0, false, false);
    for (i, &b) in line.iter().enumerate() {
        if b == b' ' {
            has_empty |= i == start;
            if count < 6 {
                words[count] = &line[start..i];
            }
            count += 1;
            start = i + 1;
        }
        is_bad |= !(0x20..=0x7e).contains(&b);
    }
    if is_bad {
        return Err(Fault::BadByte);
    }
    has_empty |= start == line.len();
    if count < 6 {
        words[count] = &line[start..];
    }
    Ok(if has_empty { None } else { Some((words, count + 1)) })
}

fn arguments_of(name: &[u8]) -> Option<usize> {
    Some(match name {
        b"stats" => 0,
        b"begin" | b"commit" | b"abort" | b"close" | b"closehard" => 1,
        b"protect" | b"release" | b"collect" | b"cancel" => 1,
        b"get" | b"del" | b"readat" | b"poll" => 2,
        b"scan" | b"put" | b"scanat" | b"open" | b"openinitial" => 3,
        b"openevery" | b"openinitialevery" => 4,
        _ => return None,
    })
}

/// The session and command of a line without its newline, and where the command begins.
pub fn read_command<'x>(line: &'x [u8], seats: u64, decoder: &'x mut Decoder) -> Result<(u8, usize, Cmd<'x>), Fault> {
    let (words, count) = words(line)?.filter(|(_, count)| *count >= 2).ok_or(Fault::WordCount)?;
    let session = match number(words[0]) {
        Some(session) if session < seats => session as u8,
        _ => return Err(Fault::Session),
    };
    let arguments = arguments_of(words[1]).ok_or(Fault::UnknownCommand)?;
    if count != arguments + 2 {
        return Err(Fault::WordCount);
    }
    let cmd = command(&words, decoder)?;
    Ok((session, words[0].len() + 1, cmd))
}

fn command<'x>(words: &[&'x [u8]; 6], decoder: &'x mut Decoder) -> Result<Cmd<'x>, Fault> {
    let num = |place: usize| number(words[place]).ok_or(Fault::Number);
    let Decoder { a, b } = decoder;
    Ok(match words[1] {
        b"begin" => Cmd::Begin(num(2)?),
        b"get" => Cmd::Get(num(2)?, key(words[3], a)?),
        b"scan" => Cmd::Scan(num(2)?, span(words[3], words[4], a, b)?),
        b"put" => {
            let ts = num(2)?;
            let key = key(words[3], a)?;
            Cmd::Put(ts, key, value(words[4], b)?)
        }
        b"del" => Cmd::Del(num(2)?, key(words[3], a)?),
        b"commit" => Cmd::Commit(num(2)?),
        b"abort" => Cmd::Abort(num(2)?),
        b"close" => Cmd::Close(num(2)?),
        b"closehard" => Cmd::CloseHard(num(2)?),
        b"readat" => Cmd::ReadAt(num(2)?, key(words[3], a)?),
        b"scanat" => Cmd::ScanAt(num(2)?, span(words[3], words[4], a, b)?),
        b"protect" => Cmd::Protect(num(2)?),
        b"release" => Cmd::Release(num(2)?),
        b"collect" => Cmd::Collect(num(2)?),
        b"poll" => Cmd::Poll(num(2)?, num(3)?),
        b"cancel" => Cmd::Cancel(num(2)?),
        b"stats" => Cmd::Stats,
        name => {
            let span = span(words[2], words[3], a, b)?;
            let cursor = num(4)?;
            let gap = if name.ends_with(b"every") { Some(num(5)?) } else { None };
            Cmd::Open(span, cursor, Kind { initial: name.starts_with(b"openinitial"), gap })
        }
    })
}

fn key<'x>(word: &'x [u8], scratch: &'x mut Vec<u8>) -> Result<&'x [u8], Fault> {
    let key = decode(word, scratch)?;
    if key.is_empty() || key.len() > 64 {
        return Err(Fault::KeyLength);
    }
    Ok(key)
}

fn value<'x>(word: &'x [u8], scratch: &'x mut Vec<u8>) -> Result<&'x [u8], Fault> {
    let value = decode(word, scratch)?;
    if value.len() > 1024 {
        return Err(Fault::ValueLength);
    }
    Ok(value)
}

fn bound<'x>(word: &'x [u8], scratch: &'x mut Vec<u8>) -> Result<&'x [u8], Fault> {
    let bound = decode(word, scratch)?;
    if bound.len() > 65 {
        return Err(Fault::KeyLength);
    }
    Ok(bound)
}

fn span<'x>(lo: &'x [u8], hi: &'x [u8], a: &'x mut Vec<u8>, b: &'x mut Vec<u8>) -> Result<Span<'x>, Fault> {
    Ok(Span { lo: bound(lo, a)?, hi: bound(hi, b)? })
}

#[inline]
pub fn push_number(out: &mut Vec<u8>, mut n: u64) {
    let mut buf = [0u8; 20];
    let mut i = 20;
    loop {
        i -= 1;
        buf[i] = b'0' + (n % 10) as u8;
        n /= 10;
        if n == 0 {
            break;
        }
    }
    out.extend_from_slice(&buf[i..]);
}

pub fn push_word(out: &mut Vec<u8>, bytes: &[u8]) {
    if bytes.is_empty() {
        out.push(b'-');
    } else if bytes == b"-" {
        out.extend_from_slice(b"%2D");
    } else if bytes.iter().all(|b| plain(*b)) {
        out.extend_from_slice(bytes);
    } else {
        for &b in bytes {
            if plain(b) {
                out.push(b);
            } else {
                let hex = b"0123456789ABCDEF";
                out.extend_from_slice(&[b'%', hex[b as usize >> 4], hex[b as usize & 15]]);
            }
        }
    }
}

fn push_base64(out: &mut Vec<u8>, b: &[u8]) {
    const A: &[u8; 64] = b"ABCDEFGHIJKLMNOPQRSTUVWXYZabcdefghijklmnopqrstuvwxyz0123456789+/";
    let mut it = b.chunks_exact(3);
    for c in &mut it {
        let n = (c[0] as usize) << 16 | (c[1] as usize) << 8 | c[2] as usize;
        out.extend_from_slice(&[A[n >> 18], A[n >> 12 & 63], A[n >> 6 & 63], A[n & 63]]);
    }
    match it.remainder() {
        [x] => out.extend_from_slice(&[A[*x as usize >> 2], A[(*x as usize & 3) << 4], b'=', b'=']),
        [x, y] => {
            let n = (*x as usize) << 8 | *y as usize;
            out.extend_from_slice(&[A[n >> 10], A[n >> 4 & 63], A[(n & 15) << 2], b'=']);
        }
        _ => {}
    }
}

/// The lines that follow a reply's first line.
#[derive(Default)]
pub struct Lines(pub Vec<u8>);

impl Sink for Lines {
    fn value(&mut self, v: &[u8]) {
        push_word(&mut self.0, v);
    }
    fn row(&mut self, key: &[u8], v: &[u8]) {
        self.0.extend_from_slice(b"row ");
        push_word(&mut self.0, key);
        self.0.push(b' ');
        push_word(&mut self.0, v);
        self.0.push(b'\n');
    }
    fn change(&mut self, ts: u64, key: &[u8], after: Option<&[u8]>) {
        let o = &mut self.0;
        match after {
            None => o.extend_from_slice(b"{\"after\":null,\"key\":\""),
            Some(v) => {
                o.extend_from_slice(b"{\"after\":\"");
                push_base64(o, v);
                o.extend_from_slice(b"\",\"key\":\"");
            }
        }
        push_base64(o, key);
        o.extend_from_slice(b"\",\"updated\":\"");
        push_number(o, ts);
        o.extend_from_slice(b"\"}\n");
    }
    fn resolved(&mut self, ts: u64) {
        self.0.extend_from_slice(b"{\"resolved\":\"");
        push_number(&mut self.0, ts);
        self.0.extend_from_slice(b"\"}\n");
    }
}

pub fn push_reply(out: &mut Vec<u8>, reply: Reply, lines: &mut Lines) {
    let (name, numbers): (&str, &[u64]) = match reply {
        Reply::Started => ("started", &[]),
        Reply::None => ("none", &[]),
        Reply::Value => {
            out.extend_from_slice(b"value ");
            lines.0.push(b'\n');
            out.append(&mut lines.0);
            return;
        }
        Reply::Rows(n) => ("rows", &[n]),
        Reply::Written => ("written", &[]),
        Reply::Committed(n) => ("committed", &[n]),
        Reply::Aborted => ("aborted", &[]),
        Reply::Closed(a, b) => ("closed", &[a, b]),
        Reply::Protected(n) => ("protected", &[n]),
        Reply::Released => ("released", &[]),
        Reply::Collected(a, b) => ("collected", &[a, b]),
        Reply::Opened(n) => ("opened", &[n]),
        Reply::Messages(n) => ("messages", &[n]),
        Reply::Cancelled => ("cancelled", &[]),
        Reply::Stats(a, b, c, d, e) => ("stats", &[a, b, c, d, e]),
        Reply::BelowClosed(n) => ("belowclosed", &[n]),
        Reply::TsUsed => ("tsused", &[]),
        Reply::TsRange => ("tsrange", &[]),
        Reply::GapRange => ("gaprange", &[]),
        Reply::Blocked(n) => ("blocked", &[n]),
        Reply::NoTxn => ("notxn", &[]),
        Reply::NotOwner => ("notowner", &[]),
        Reply::Ended => ("ended", &[]),
        Reply::TooLate => ("toolate", &[]),
        Reply::NotClosed(n) => ("notclosed", &[n]),
        Reply::BelowHorizon(n) => ("belowhorizon", &[n]),
        Reply::NoProtection => ("noprotection", &[]),
        Reply::NoFeed => ("nofeed", &[]),
        Reply::FeedCancelled => ("feedcancelled", &[]),
    };
    out.extend_from_slice(name.as_bytes());
    for n in numbers {
        out.push(b' ');
        push_number(out, *n);
    }
    out.push(b'\n');
    out.append(&mut lines.0);
}
