//! Requests and answers of HTTP/1.1, as far as a load needs them.

use crate::failure::{refused, Failure};
use crate::peer::Wire;
use std::io::{self, BufRead, Read};

pub fn request(method: &str, port: u16, path: &str, body: &str) -> Vec<u8> {
    request_with(method, port, path, "", body)
}

/// The head's line with one of the two tokens that the bench gives to this server, because one client doesn't get all
/// seats. Without `--tokens` nobody looks at it.
pub fn shown(client: usize) -> String {
    format!("Authorization: Bearer load-{}-0123456789abcdef\r\n", client % 2)
}

/// The same with further headers, each with its end.
pub fn request_with(method: &str, port: u16, path: &str, headers: &str, body: &str) -> Vec<u8> {
    let length = body.len();
    let head = format!("{method} {path} HTTP/1.1\r\nHost: 127.0.0.1:{port}\r\nContent-Length: {length}\r\n");
    format!("{head}{headers}\r\n{body}").into_bytes()
}

/// How the body of an answer is sent.
#[derive(Clone, Copy, PartialEq)]
pub enum Body {
    Sized(u64),
    Chunked,
}

/// Reads the head of an answer that has to be 200.
pub fn head(wire: &mut Wire) -> Result<Body, Failure> {
    head_with(wire, |_, _| {})
}

/// The same, and hands over each header's name and value, in small letters.
pub fn head_with(wire: &mut Wire, mut take: impl FnMut(&str, &str)) -> Result<Body, Failure> {
    let mut line = Vec::new();
    read_line(wire, &mut line)?;
    if line.get(9..12) != Some(b"200") {
        let _ = wire.input.read_until(0, &mut line);
        return Err(refused(&line));
    }
    let mut body = Body::Sized(0);
    loop {
        line.clear();
        read_line(wire, &mut line)?;
        let text = String::from_utf8_lossy(&line).to_ascii_lowercase();
        let Some((name, value)) = text.trim_end().split_once(": ") else { return Ok(body) };
        take(name, value);
        match (name, value) {
            ("content-length", size) => body = Body::Sized(size.parse().map_err(|_| refused(&line))?),
            ("transfer-encoding", "chunked") => body = Body::Chunked,
            _ => {}
        }
    }
}

/// The whole body of the next answer.
pub fn answer(wire: &mut Wire, body: &mut Vec<u8>) -> Result<(), Failure> {
    body.clear();
    match head(wire)? {
        Body::Sized(size) => exactly(wire, size, body),
        Body::Chunked => {
            while chunk(wire, body)? > 0 {}
            Ok(())
        }
    }
}

/// Adds the next chunk, and tells its length: 0 at the end of the body.
pub fn chunk(wire: &mut Wire, body: &mut Vec<u8>) -> Result<u64, Failure> {
    let mut line = Vec::new();
    read_line(wire, &mut line)?;
    let text = String::from_utf8_lossy(&line);
    let size = u64::from_str_radix(text.trim(), 16).map_err(|_| refused(&line))?;
    exactly(wire, size, body)?;
    let mut end = [0; 2];
    wire.input.read_exact(&mut end)?;
    Ok(size)
}

fn exactly(wire: &mut Wire, size: u64, body: &mut Vec<u8>) -> Result<(), Failure> {
    if (&mut wire.input).take(size).read_to_end(body)? as u64 == size {
        Ok(())
    } else {
        Err(io::Error::from(io::ErrorKind::UnexpectedEof).into())
    }
}

fn read_line(wire: &mut Wire, line: &mut Vec<u8>) -> Result<(), Failure> {
    if wire.input.read_until(b'\n', line)? == 0 {
        return Err(io::Error::from(io::ErrorKind::UnexpectedEof).into());
    }
    Ok(())
}
