//! Ripsawbean's server: by WebSockets, with many lines a message or a message for each line, or by `POST /call`.

use crate::base64::number_in;
use crate::failure::{refused, Failure};
use crate::peer::{key_of, value_of, Client, Peer, Reader, Wire};
use crate::{http, websocket};
use std::fmt::Write;
use std::io;
use std::ops::Range;

/// What an answer begins with where a line was taken.
const TAKEN: [&[u8]; 5] = [b"started", b"written", b"value ", b"none", b"committed "];
const ROW: &[u8] = b"{\"after\":\"";
const RESOLVED: &[u8] = b"{\"resolved\":";

#[derive(Clone, Copy, PartialEq)]
pub enum Way {
    Messages,
    Lines,
    Calls,
}

pub struct Ours {
    pub port: u16,
    pub way: Way,
}

impl Ours {
    fn message(&self, text: &str) -> Vec<u8> {
        match self.way {
            Way::Calls => http::request_with("POST", self.port, "/call", &http::shown(0), text),
            Way::Messages | Way::Lines => websocket::framed(text.as_bytes()),
        }
    }

    fn feed(&self) -> Result<Feed, Failure> {
        Feed::open(self.port, "/feed")
    }
}

impl Peer for Ours {
    fn messages(&self, client: usize, count: usize, rows: usize) -> Vec<Vec<u8>> {
        let lines = (0..count).map(|at| {
            let key = key_of(client, at);
            ["begin\n".into(), format!("put . {key} v{at}\n"), format!("get . {key}\n"), "commit .\n".to_string()]
        });
        if self.way == Way::Lines {
            return lines.flatten().map(|line| self.message(&line)).collect();
        }
        let lines: Vec<String> = lines.map(|four| four.concat()).collect();
        lines.chunks(rows).map(|part| self.message(&part.concat())).collect()
    }

    fn told(&self, rows: Range<usize>) -> Vec<u8> {
        let mut text = String::new();
        for at in rows {
            let _ = write!(text, "begin\nput . r{} {}\ncommit .\n", at % 1000, value_of(at));
        }
        self.message(&text)
    }

    fn filled(&self, rows: Range<usize>) -> Vec<u8> {
        let mut text = String::from("begin\n");
        for at in rows {
            let _ = writeln!(text, "put . first{at:08} {}", value_of(at));
        }
        self.message(&(text + "commit .\n"))
    }

    fn client(&self) -> Result<Box<dyn Client>, Failure> {
        let wire = match self.way {
            Way::Calls => Wire::new(self.port)?,
            Way::Messages | Way::Lines => websocket::open(self.port, "/session")?,
        };
        Ok(Box::new(Talk { wire, way: self.way, answer: Vec::new() }))
    }

    /// A row without a number, so that each feed begins with something and comes to `resolved`.
    fn ready(&self) -> Result<(), Failure> {
        let mut client = self.client()?;
        client.send(&self.message("begin\nput . ready -\ncommit .\n"))?;
        client.receive(1)
    }

    /// A feed that was told all that stands.
    fn reader(&self) -> Result<Box<dyn Reader>, Failure> {
        let mut feed = self.feed()?;
        while !feed.lines(|_| {})? {}
        Ok(Box::new(feed))
    }

    fn read_first(&self) -> Result<usize, Failure> {
        let (mut feed, mut count) = (self.feed()?, 0);
        while !feed.lines(|_| count += 1)? {}
        Ok(count)
    }
}

struct Talk {
    wire: Wire,
    way: Way,
    answer: Vec<u8>,
}

impl Client for Talk {
    fn send(&mut self, messages: &[u8]) -> io::Result<()> {
        self.wire.send(messages)
    }

    fn receive(&mut self, _rows: usize) -> Result<(), Failure> {
        match self.way {
            Way::Calls => http::answer(&mut self.wire, &mut self.answer)?,
            Way::Messages | Way::Lines => websocket::receive(&mut self.wire, &mut self.answer)?,
        }
        if is_taken(&self.answer) {
            Ok(())
        } else {
            Err(refused(&self.answer))
        }
    }

    fn has_more(&self) -> bool {
        !self.wire.input.buffer().is_empty()
    }
}

fn is_taken(answer: &[u8]) -> bool {
    let mut lines = answer.split(|byte| *byte == b'\n').filter(|line| !line.is_empty()).peekable();
    lines.peek().is_some()
        && lines.all(|line| {
            let told = line.iter().rposition(|byte| *byte == b'>').and_then(|at| line.get(at + 2..));
            told.is_some_and(|told| TAKEN.iter().any(|word| told.starts_with(word)))
        })
}

pub struct Feed {
    wire: Wire,
    held: Vec<u8>,
}

impl Feed {
    pub fn open(port: u16, path: &str) -> Result<Feed, Failure> {
        let mut wire = Wire::new(port)?;
        wire.send(&http::request_with("GET", port, path, &http::shown(0), ""))?;
        http::head(&mut wire)?;
        Ok(Feed { wire, held: Vec::new() })
    }

    /// Reads a chunk, hands over each row's line, and tells whether `resolved` has come.
    pub fn lines(&mut self, mut take: impl FnMut(&[u8])) -> Result<bool, Failure> {
        if http::chunk(&mut self.wire, &mut self.held)? == 0 {
            return Err(refused(b"the feed has ended"));
        }
        let mut is_resolved = false;
        let whole = self.held.iter().rposition(|byte| *byte == b'\n').map_or(0, |at| at + 1);
        for line in self.held[..whole].split(|byte| *byte == b'\n') {
            if line.starts_with(ROW) {
                take(line);
            }
            is_resolved |= line.starts_with(RESOLVED);
        }
        self.held.drain(..whole);
        Ok(is_resolved)
    }
}

impl Reader for Feed {
    fn read(&mut self, told: &mut Vec<usize>) -> Result<(), Failure> {
        self.lines(|line| told.extend(number_in(&line[ROW.len()..]))).map(|_| ())
    }
}

#[cfg(test)]
mod tests {
    use super::*;

    /// Events as docs/GUIDE.md has them.
    #[test]
    fn sees_refusals() {
        assert!(is_taken(b"0 0 begin 10 => started\n1 0 put 10 a 1 => written\n2 0 get 10 a => value 1\n"));
        assert!(is_taken(b"3 0 commit 10 => committed 1\n"));
        for refusal in [
            "3 0 put 10 a 1 => toolate\n",
            "fault 3 67 full\n",
            "3 1 get 20 a => blocked 10\n",
            "3 0 put 1 a 1 => nomemory\n",
            "",
        ] {
            assert!(!is_taken(refusal.as_bytes()), "{refusal}");
        }
    }
}
