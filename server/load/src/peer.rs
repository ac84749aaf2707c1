//! What a server has to be asked for, so that the same work can be measured of each.

use crate::failure::Failure;
use std::io::{self, BufReader, Write};
use std::net::TcpStream;
use std::time::Duration;

/// The longest that any answer may take.
const SILENCE: Duration = Duration::from_secs(60);

pub trait Peer: Sync {
    /// The messages of so many transactions of a client, `rows` of them in each where the peer has such messages.
    fn messages(&self, client: usize, count: usize, rows: usize) -> Vec<Vec<u8>>;

    /// A message that writes rows which readers are told: row `at` has the value `value_of(at)`.
    fn told(&self, rows: std::ops::Range<usize>) -> Vec<u8>;

    /// A message that writes rows for a first read.
    fn filled(&self, rows: std::ops::Range<usize>) -> Vec<u8>;

    /// How many answers come to a message that writes so many rows for a first read.
    fn answers_to_filling(&self, rows: usize) -> usize {
        rows
    }

    fn client(&self) -> Result<Box<dyn Client>, Failure>;

    /// Makes what readers need before the first of them is opened.
    fn ready(&self) -> Result<(), Failure> {
        Ok(())
    }

    /// A reader that is told what is written once this has returned.
    fn reader(&self) -> Result<Box<dyn Reader>, Failure>;

    /// Reads all rows as a consumer does that has nothing, and counts them.
    fn read_first(&self) -> Result<usize, Failure>;
}

pub trait Client: Send {
    fn send(&mut self, messages: &[u8]) -> io::Result<()>;

    /// Takes the answer to one message, of which it is a part that `rows` rows were written.
    fn receive(&mut self, rows: usize) -> Result<(), Failure>;

    /// Whether an answer, or a part of one, is here already.
    fn has_more(&self) -> bool;
}

pub trait Reader: Send {
    /// Waits for more, and adds the numbers of the rows that came.
    fn read(&mut self, told: &mut Vec<usize>) -> Result<(), Failure>;
}

/// A connection: written at once, read through a buffer.
pub struct Wire {
    pub out: TcpStream,
    pub input: BufReader<TcpStream>,
}

impl Wire {
    pub fn new(port: u16) -> io::Result<Wire> {
        let out = TcpStream::connect(("127.0.0.1", port))?;
        out.set_nodelay(true)?;
        out.set_read_timeout(Some(SILENCE))?;
        out.set_write_timeout(Some(SILENCE))?;
        let input = BufReader::with_capacity(1 << 16, out.try_clone()?);
        Ok(Wire { out, input })
    }

    pub fn send(&mut self, data: &[u8]) -> io::Result<()> {
        self.out.write_all(data)
    }
}

/// Twelve digits, so that each row has as many bytes.
pub fn value_of(at: usize) -> String {
    format!("{at:012}")
}

pub fn key_of(client: usize, at: usize) -> String {
    format!("k{client}.{}", at * 7 % 100)
}
