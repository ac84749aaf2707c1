//! One frame: its head as it comes, and whole frames as they are sent.
//!
//! ```text
//! F RRR OOOO | M LLLLLLL | length: 0, 2 or 8 bytes | mask: 4 bytes | payload
//! ```
//!
//! F is the last frame of a message, R are reserved bits, O is the opcode, M whether a mask follows.

use super::code;
use std::fmt::{self, Display};

/// The most bytes of a control frame.
pub const CONTROL: usize = 125;

/// The most bytes of the head of a frame that is sent.
pub const HEAD: usize = 10;

const LAST: u8 = 0x80;
const RESERVED: u8 = 0x70;
const MASKED: u8 = 0x80;

/// The client has broken a rule: the connection is to be closed with this code.
#[derive(Debug, Clone, Copy, PartialEq, Eq)]
pub struct Ended {
    pub code: u16,
    pub why: &'static str,
}

impl Display for Ended {
    fn fmt(&self, out: &mut fmt::Formatter) -> fmt::Result {
        write!(out, "{}: {}", self.code, self.why)
    }
}

impl std::error::Error for Ended {}

const fn broken(why: &'static str) -> Ended {
    Ended { code: code::PROTOCOL, why }
}

pub const RESERVED_BIT: Ended = broken("a reserved bit is set");
pub const RESERVED_OPCODE: Ended = broken("an opcode is reserved");
pub const NO_MASK: Ended = broken("a frame has no mask");
pub const CUT_CONTROL: Ended = broken("a control frame is fragmented");
pub const LONG_CONTROL: Ended = broken("a control frame is longer than 125 bytes");
pub const LONG_LENGTH: Ended = broken("a length isn't written in its shortest form");
pub const NOTHING_TO_GO_ON: Ended = broken("a continuation has no beginning");
pub const NOT_AT_ITS_END: Ended = broken("a message begins within another");
pub const CLOSE_CODE: Ended = broken("a close frame has no such code");
pub const NO_TEXT: Ended = Ended { code: code::NO_TEXT, why: "lines are text" };
pub const NO_UTF8: Ended = Ended { code: code::NO_UTF8, why: "a text is no UTF-8" };
pub const NO_MEMORY: Ended = Ended { code: code::LATER, why: "nomemory" };
pub const TOO_LONG: Ended = Ended { code: code::TOO_LONG, why: "a message is longer than --max-message" };

#[derive(Debug, Clone, Copy, PartialEq, Eq)]
pub enum Opcode {
    Continuation = 0x0,
    Text = 0x1,
    Binary = 0x2,
    Close = 0x8,
    Ping = 0x9,
    Pong = 0xA,
}

impl Opcode {
    fn of(number: u8) -> Result<Opcode, Ended> {
        use Opcode::*;
        let all = [Continuation, Text, Binary, Close, Ping, Pong];
        all.into_iter().find(|one| *one as u8 == number).ok_or(RESERVED_OPCODE)
    }

    pub fn is_control(self) -> bool {
        matches!(self, Opcode::Close | Opcode::Ping | Opcode::Pong)
    }
}

/// A frame's head.
#[derive(Debug, Clone, Copy, PartialEq, Eq)]
pub struct Head {
    pub is_last: bool,
    pub opcode: Opcode,
    pub length: u64,
    pub mask: [u8; 4],
}

/// The head with which `bytes` begin and how long it is, or None where it isn't whole yet. What breaks a rule is found
/// by the first byte that breaks it.
pub fn head_of(bytes: &[u8]) -> Result<Option<(Head, usize)>, Ended> {
    let Some(&first) = bytes.first() else { return Ok(None) };
    let (opcode, is_last) = opcode_of(first)?;
    let Some(&second) = bytes.get(1) else { return Ok(None) };
    if second & MASKED == 0 {
        return Err(NO_MASK);
    }
    let short = second & !MASKED;
    if opcode.is_control() && usize::from(short) > CONTROL {
        return Err(LONG_CONTROL);
    }
    let Some((length, size)) = length_of(short, &bytes[2..])? else { return Ok(None) };
    let Some(&mask) = bytes[2 + size..].first_chunk() else { return Ok(None) };
    Ok(Some((Head { is_last, opcode, length, mask }, 2 + size + mask.len())))
}

fn opcode_of(first: u8) -> Result<(Opcode, bool), Ended> {
    if first & RESERVED != 0 {
        return Err(RESERVED_BIT);
    }
    let (opcode, is_last) = (Opcode::of(first & 0x0f)?, first & LAST != 0);
    match opcode.is_control() && !is_last {
        true => Err(CUT_CONTROL),
        false => Ok((opcode, is_last)),
    }
}

/// The length of a payload, and how many bytes behind the short one say it.
fn length_of(short: u8, bytes: &[u8]) -> Result<Option<(u64, usize)>, Ended> {
    let (length, size, least) = match short {
        126 => (bytes.first_chunk().map(|two| u64::from(u16::from_be_bytes(*two))), 2, 126),
        127 => (bytes.first_chunk().map(|eight| u64::from_be_bytes(*eight)), 8, 1 << 16),
        _ => (Some(u64::from(short)), 0, 0),
    };
    match length {
        None => Ok(None),
        // The highest bit of eight bytes has to be 0.
        Some(length) if length < least || length > i64::MAX as u64 => Err(LONG_LENGTH),
        Some(length) => Ok(Some((length, size))),
    }
}

/// Takes the mask off a piece of a payload, of which `before` bytes came before.
pub fn unmask(piece: &mut [u8], mask: [u8; 4], before: u64) {
    let mut key = [0; 16];
    for (byte, at) in key.iter_mut().zip(before % 4..) {
        *byte = mask[(at % 4) as usize];
    }
    for chunk in piece.chunks_mut(key.len()) {
        chunk.iter_mut().zip(key).for_each(|(byte, one)| *byte ^= one);
    }
}

/// What is sent.
#[derive(Debug, Clone, Copy, PartialEq, Eq)]
pub enum Outgoing<'a> {
    /// UTF-8.
    Text(&'a [u8]),
    Ping(&'a [u8]),
    Pong(&'a [u8]),
    /// A code, and why. None answers a close frame that had no code.
    Close(Option<(u16, &'a str)>),
}

/// Puts a frame behind `out`. A control frame that is too long is cut.
pub fn encode(frame: Outgoing, out: &mut Vec<u8>) {
    match frame {
        Outgoing::Text(text) => put(Opcode::Text, &[], text, out),
        Outgoing::Ping(bytes) => put(Opcode::Ping, &[], &bytes[..bytes.len().min(CONTROL)], out),
        Outgoing::Pong(bytes) => put(Opcode::Pong, &[], &bytes[..bytes.len().min(CONTROL)], out),
        Outgoing::Close(None) => put(Opcode::Close, &[], &[], out),
        Outgoing::Close(Some((code, why))) => {
            put(Opcode::Close, &code.to_be_bytes(), beginning(why, CONTROL - 2).as_bytes(), out);
        }
    }
}

fn put(opcode: Opcode, front: &[u8], payload: &[u8], out: &mut Vec<u8>) {
    let length = front.len() + payload.len();
    out.reserve(HEAD + length);
    out.push(LAST | opcode as u8);
    match (u8::try_from(length), u16::try_from(length)) {
        (Ok(short @ 0..=125), _) => out.push(short),
        (_, Ok(middle)) => {
            out.push(126);
            out.extend_from_slice(&middle.to_be_bytes());
        }
        _ => {
            out.push(127);
            out.extend_from_slice(&(length as u64).to_be_bytes());
        }
    }
    out.extend_from_slice(front);
    out.extend_from_slice(payload);
}

/// As many whole characters of a text as fit.
fn beginning(text: &str, most: usize) -> &str {
    let end = (0..=most.min(text.len())).rev().find(|at| text.is_char_boundary(*at));
    &text[..end.unwrap_or(0)]
}
