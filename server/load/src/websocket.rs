//! The client's side of a WebSocket (RFC 6455), as far as a load needs it: whole texts out, whole texts in.

use crate::failure::{refused, Failure};
use crate::http;
use crate::peer::Wire;
use std::io::{self, BufRead, Read};
use std::sync::atomic::{AtomicUsize, Ordering::Relaxed};

const TEXT: u8 = 1;
const CLOSE: u8 = 8;
const PING: u8 = 9;
const PONG: u8 = 10;
/// A mask as good as any other, which leaves the bytes as they are.
const MASK: [u8; 4] = [0; 4];

pub fn open(port: u16, path: &str) -> Result<Wire, Failure> {
    static OPENED: AtomicUsize = AtomicUsize::new(0);
    let mut wire = Wire::new(port)?;
    let shown = http::shown(OPENED.fetch_add(1, Relaxed));
    let head = format!(
        "GET {path} HTTP/1.1\r\nHost: 127.0.0.1:{port}\r\nUpgrade: websocket\r\nConnection: Upgrade\r\n\
         Sec-WebSocket-Key: dGhlIHNhbXBsZSBub25jZQ==\r\nSec-WebSocket-Version: 13\r\n{shown}\r\n"
    );
    wire.send(head.as_bytes())?;
    let mut answer = Vec::new();
    while !answer.ends_with(b"\r\n\r\n") {
        if wire.input.read_until(b'\n', &mut answer)? == 0 {
            return Err(refused(&answer));
        }
    }
    if answer.starts_with(b"HTTP/1.1 101 ") {
        Ok(wire)
    } else {
        Err(refused(&answer))
    }
}

pub fn framed(data: &[u8]) -> Vec<u8> {
    frame_of(TEXT, data)
}

fn frame_of(opcode: u8, data: &[u8]) -> Vec<u8> {
    let mut frame = Vec::with_capacity(data.len() + 14);
    frame.push(0x80 | opcode);
    match data.len() {
        size @ ..=125 => frame.push(0x80 | size as u8),
        size @ ..=65_535 => {
            frame.push(0xfe);
            frame.extend((size as u16).to_be_bytes());
        }
        size => {
            frame.push(0xff);
            frame.extend((size as u64).to_be_bytes());
        }
    }
    frame.extend(MASK);
    frame.extend(data);
    frame
}

/// The next text. A ping is answered meanwhile, and a close is a refusal.
pub fn receive(wire: &mut Wire, text: &mut Vec<u8>) -> Result<(), Failure> {
    loop {
        let opcode = frame(&mut wire.input, text)?;
        match opcode & 15 {
            TEXT => return Ok(()),
            CLOSE => return Err(refused(text)),
            PING => wire.send(&frame_of(PONG, text))?,
            _ => {}
        }
    }
}

fn frame(input: &mut impl Read, data: &mut Vec<u8>) -> io::Result<u8> {
    let mut head = [0; 2];
    input.read_exact(&mut head)?;
    let size = match head[1] {
        126 => {
            let mut size = [0; 2];
            input.read_exact(&mut size)?;
            u64::from(u16::from_be_bytes(size))
        }
        127 => {
            let mut size = [0; 8];
            input.read_exact(&mut size)?;
            u64::from_be_bytes(size)
        }
        size => u64::from(size),
    };
    data.clear();
    if input.take(size).read_to_end(data)? as u64 == size {
        Ok(head[0])
    } else {
        Err(io::ErrorKind::UnexpectedEof.into())
    }
}

#[cfg(test)]
mod tests {
    use super::*;

    /// RFC 6455, section 5.7: an unmasked text of one frame, and one of 256 bytes.
    #[test]
    fn reads_frames_of_the_standard() {
        let mut data = Vec::new();
        assert_eq!(frame(&mut [0x81, 0x05, 0x48, 0x65, 0x6c, 0x6c, 0x6f].as_slice(), &mut data).ok(), Some(0x81));
        assert_eq!(data, b"Hello");
        let long: Vec<u8> = [0x82, 0x7e, 0x01, 0x00].into_iter().chain([7; 256]).collect();
        assert_eq!(frame(&mut long.as_slice(), &mut data).ok(), Some(0x82));
        assert_eq!(data, [7; 256]);
        assert!(frame(&mut [0x81, 0x05, 0x48].as_slice(), &mut data).is_err());
    }

    /// The lengths of section 5.2: seven bits, sixteen, sixty-four.
    #[test]
    fn writes_lengths_of_the_standard() {
        assert_eq!(framed(b"Hello"), [&[0x81, 0x85, 0, 0, 0, 0], b"Hello".as_slice()].concat());
        assert_eq!(framed(&[7; 126])[..4], [0x81, 0xfe, 0, 126]);
        assert_eq!(framed(&[7; 65_536])[..10], [0x81, 0xff, 0, 0, 0, 0, 0, 1, 0, 0]);
    }
}
