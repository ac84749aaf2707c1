//! `run`: a script in, a transcript out, byte for byte as `mvfeed run` writes it.
use crate::engine::Engine;
use crate::text::{push_number, push_reply, read_command, Decoder, Fault, Lines};
use std::io::{self, Read, Write};

/// How long a line is at most, without its newline.
const LINE: usize = 4096;
const INPUT: usize = 1 << 18;
const OUTPUT: usize = 1 << 16;

pub struct Options {
    pub seats: u64,
    pub ring: usize,
    pub first: u64,
}

pub enum End {
    Done,
    Fault,
    Spent,
}

struct Run<W> {
    options: Options,
    engine: Engine,
    position: u64,
    /// How many lines were begun.
    count: u64,
    out: Vec<u8>,
    output: W,
    lines: Lines,
    decoder: Decoder,
}

pub fn run(options: Options, mut input: impl Read, output: impl Write) -> io::Result<End> {
    let (position, engine) = (options.first, Engine::new(options.ring));
    let (lines, decoder) = (Lines::default(), Decoder::default());
    let out = Vec::with_capacity(2 * OUTPUT);
    let mut run = Run { options, engine, position, count: 0, out, output, lines, decoder };
    let mut block = vec![0u8; INPUT];
    let (mut from, mut to) = (0, 0);
    loop {
        // Nothing is held back while the input is waited for.
        run.write()?;
        let read = input.read(&mut block[to..])?;
        to += read;
        while let Some(found) = next_line(&block[from..to], read == 0) {
            run.count += 1;
            let end = match found {
                Ok(length) => {
                    let line = &block[from..from + length];
                    from += length + 1;
                    run.line(line)?
                }
                Err(fault) => Some(run.fault(fault)),
            };
            if let Some(end) = end {
                run.write()?;
                return Ok(end);
            }
        }
        if read == 0 {
            return Ok(End::Done);
        }
        block.copy_within(from..to, 0);
        to -= from;
        from = 0;
    }
}

/// The length of the next line, or what is wrong with it, or nothing where more has to be read.
#[inline]
fn next_line(rest: &[u8], is_last: bool) -> Option<Result<usize, Fault>> {
    let window = &rest[..rest.len().min(LINE + 1)];
    match window.iter().position(|b| *b == b'\n') {
        Some(length) => Some(Ok(length)),
        None if window.len() > LINE => Some(Err(Fault::LineTooLong)),
        None if is_last && !rest.is_empty() => Some(Err(Fault::NoNewline)),
        None => None,
    }
}

impl<W: Write> Run<W> {
    fn write(&mut self) -> io::Result<()> {
        self.output.write_all(&self.out)?;
        self.out.clear();
        self.output.flush()
    }

    /// Answers a line, and says where the run ends by it.
    #[inline]
    fn line(&mut self, line: &[u8]) -> io::Result<Option<End>> {
        let (session, at, cmd) = match read_command(line, self.options.seats, &mut self.decoder) {
            Ok(read) => read,
            Err(fault) => return Ok(Some(self.fault(fault))),
        };
        if self.position == u64::MAX {
            self.out.extend_from_slice(b"spent ");
            push_number(&mut self.out, self.count);
            self.out.push(b'\n');
            return Ok(Some(End::Spent));
        }
        push_number(&mut self.out, self.position);
        self.out.push(b' ');
        push_number(&mut self.out, u64::from(session));
        self.out.push(b' ');
        self.out.extend_from_slice(&line[at..]);
        self.out.extend_from_slice(b" => ");
        let reply = self.engine.step(session, cmd, &mut self.lines);
        push_reply(&mut self.out, reply, &mut self.lines);
        self.position += 1;
        if self.out.len() >= OUTPUT {
            self.write()?;
        }
        Ok(None)
    }

    fn fault(&mut self, fault: Fault) -> End {
        self.out.extend_from_slice(b"fault ");
        push_number(&mut self.out, self.count);
        self.out.push(b' ');
        self.out.extend_from_slice(fault.text().as_bytes());
        self.out.push(b'\n');
        End::Fault
    }
}
