//! Redis, by its own protocol: transactions by MULTI and EXEC, readers of a stream.

use crate::base64::number_of;
use crate::failure::{refused, Failure};
use crate::peer::{key_of, value_of, Client, Peer, Reader, Wire};
use std::io::{self, BufRead, Read};
use std::ops::Range;

const STREAM: &str = "told";
const HASH: &str = "first";

pub struct Redis {
    pub port: u16,
}

fn command(words: &[&str]) -> Vec<u8> {
    let mut text = format!("*{}\r\n", words.len());
    for word in words {
        text += &format!("${}\r\n{word}\r\n", word.len());
    }
    text.into_bytes()
}

impl Peer for Redis {
    fn messages(&self, client: usize, count: usize, rows: usize) -> Vec<Vec<u8>> {
        let rows_of: Vec<Vec<u8>> = (0..count)
            .map(|at| {
                let key = key_of(client, at);
                let words = [&["MULTI"][..], &["SET", &key, &format!("v{at}")], &["GET", &key], &["EXEC"]];
                words.into_iter().flat_map(command).collect()
            })
            .collect();
        rows_of.chunks(rows).map(|part| part.concat()).collect()
    }

    fn told(&self, rows: Range<usize>) -> Vec<u8> {
        rows.flat_map(|at| command(&["XADD", STREAM, "MAXLEN", "~", "100000", "*", "row", &value_of(at)])).collect()
    }

    fn filled(&self, rows: Range<usize>) -> Vec<u8> {
        rows.flat_map(|at| command(&["HSET", HASH, &format!("first{at:08}"), &value_of(at)])).collect()
    }

    fn client(&self) -> Result<Box<dyn Client>, Failure> {
        Ok(Box::new(Talk { wire: Wire::new(self.port)? }))
    }

    fn reader(&self) -> Result<Box<dyn Reader>, Failure> {
        let mut wire = Wire::new(self.port)?;
        wire.send(&command(&["XADD", STREAM, "*", "row", "-"]))?;
        match reply(&mut wire)? {
            Reply::Text(last) => Ok(Box::new(Follower { wire, last })),
            other => Err(refused(format!("{other:?}").as_bytes())),
        }
    }

    fn read_first(&self) -> Result<usize, Failure> {
        let mut wire = Wire::new(self.port)?;
        wire.send(&command(&["HGETALL", HASH]))?;
        match reply(&mut wire)? {
            Reply::List(found) => Ok(found.len() / 2),
            other => Err(refused(format!("{other:?}").as_bytes())),
        }
    }
}

#[derive(Debug, PartialEq)]
enum Reply {
    Text(Vec<u8>),
    List(Vec<Reply>),
    Nothing,
}

/// The next reply. An error of the server's is a refusal.
fn reply(wire: &mut Wire) -> Result<Reply, Failure> {
    let mut line = Vec::new();
    if wire.input.read_until(b'\n', &mut line)? == 0 {
        return Err(io::Error::from(io::ErrorKind::UnexpectedEof).into());
    }
    let Some((kind, word)) = line.trim_ascii_end().split_first() else { return Err(refused(&line)) };
    match (kind, number_of(word)) {
        (b'+' | b':', _) => Ok(Reply::Text(word.to_vec())),
        (b'$', Some(size)) => {
            let mut text = vec![0; size + 2];
            wire.input.read_exact(&mut text)?;
            text.truncate(size);
            Ok(Reply::Text(text))
        }
        (b'*', Some(size)) => Ok(Reply::List((0..size).map(|_| reply(wire)).collect::<Result<_, _>>()?)),
        (b'$' | b'*', None) if word == b"-1" => Ok(Reply::Nothing),
        _ => Err(refused(&line)),
    }
}

struct Talk {
    wire: Wire,
}

impl Client for Talk {
    fn send(&mut self, messages: &[u8]) -> io::Result<()> {
        self.wire.send(messages)
    }

    /// The replies to so many transactions, of four commands each, or to so many writes of one.
    fn receive(&mut self, rows: usize) -> Result<(), Failure> {
        for _ in 0..rows {
            if reply(&mut self.wire)? == Reply::Text(b"OK".to_vec()) {
                for _ in 0..3 {
                    reply(&mut self.wire)?;
                }
            }
        }
        Ok(())
    }

    fn has_more(&self) -> bool {
        !self.wire.input.buffer().is_empty()
    }
}

struct Follower {
    wire: Wire,
    last: Vec<u8>,
}

impl Reader for Follower {
    fn read(&mut self, told: &mut Vec<usize>) -> Result<(), Failure> {
        let last = String::from_utf8_lossy(&self.last).into_owned();
        self.wire.send(&command(&["XREAD", "COUNT", "1000", "BLOCK", "0", "STREAMS", STREAM, &last]))?;
        let Reply::List(streams) = reply(&mut self.wire)? else { return Ok(()) };
        for stream in streams {
            let Some(entries) = second(stream) else { continue };
            for entry in list(entries) {
                let mut parts = list(entry).into_iter();
                if let (Some(Reply::Text(place)), Some(row)) = (parts.next(), parts.next().and_then(second)) {
                    self.last = place;
                    told.extend(text(row).and_then(|digits| number_of(&digits)));
                }
            }
        }
        Ok(())
    }
}

fn list(reply: Reply) -> Vec<Reply> {
    if let Reply::List(found) = reply {
        found
    } else {
        Vec::new()
    }
}

fn second(reply: Reply) -> Option<Reply> {
    list(reply).into_iter().nth(1)
}

fn text(reply: Reply) -> Option<Vec<u8>> {
    if let Reply::Text(found) = reply {
        Some(found)
    } else {
        None
    }
}
