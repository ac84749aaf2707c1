//! Messages from bytes.
//!
//! What is fed waits in `buffer` until `next` takes it: a head once it is whole, a control frame too, and of a text
//! whatever is there, which moves into `text` at once. So a long message is never kept twice.

use super::code;
use super::frames::{self, head_of, unmask, Ended, Head, Opcode};

#[derive(Debug, Clone, PartialEq, Eq)]
pub enum Incoming {
    Text(String),
    Ping(Vec<u8>),
    Pong(Vec<u8>),
    /// The client closes. It is answered by a close frame with the same code, and nothing comes after it.
    Close {
        code: Option<u16>,
        why: String,
    },
}

enum State {
    /// A frame begins.
    Head,
    /// So many bytes of its payload were taken.
    Payload(Head, u64),
    /// The client has closed, or has broken a rule.
    Over(Option<Ended>),
}

/// A message that isn't whole yet.
#[derive(Default)]
struct Text {
    bytes: Vec<u8>,
    /// Bytes of whole characters, which are UTF-8.
    checked: usize,
}

pub struct Decoder {
    most: usize,
    buffer: Vec<u8>,
    /// How much of the buffer was taken.
    at: usize,
    state: State,
    text: Option<Text>,
}

impl Decoder {
    /// A decoder of messages of so many bytes at most.
    pub fn new(most: usize) -> Decoder {
        Decoder { most, buffer: Vec::new(), at: 0, state: State::Head, text: None }
    }

    /// Takes bytes that were read. They wait until `next` takes them, so it is asked until it has no more.
    pub fn feed(&mut self, bytes: &[u8]) {
        if matches!(self.state, State::Over(_)) {
            return;
        }
        // What is moved to the front is less than what was taken, so each byte is moved once at most.
        if 2 * self.at >= self.buffer.len() {
            self.buffer.drain(..self.at);
            self.at = 0;
        }
        self.buffer.extend_from_slice(bytes);
    }

    /// The next message, or None until more is fed. After an end it is the same end again.
    #[allow(clippy::should_implement_trait)] // an iterator would end where this one waits for more
    pub fn next(&mut self) -> Result<Option<Incoming>, Ended> {
        let next = self.step();
        match &next {
            Ok(Some(Incoming::Close { .. })) => self.end(None),
            Ok(_) => {}
            Err(ended) => self.end(Some(*ended)),
        }
        next
    }

    /// Bytes of a message that isn't whole yet.
    pub fn begun(&self) -> usize {
        self.text.as_ref().map_or(0, |text| text.bytes.len())
    }

    #[cfg(test)]
    /// Bytes that are kept, here and of a message that isn't whole yet.
    pub fn kept(&self) -> usize {
        self.buffer.capacity() + self.text.as_ref().map_or(0, |text| text.bytes.capacity())
    }

    fn end(&mut self, ended: Option<Ended>) {
        self.state = State::Over(ended);
        (self.buffer, self.at, self.text) = (Vec::new(), 0, None);
    }

    fn step(&mut self) -> Result<Option<Incoming>, Ended> {
        loop {
            let found = match self.state {
                State::Over(None) => return Ok(None),
                State::Over(Some(ended)) => return Err(ended),
                State::Head => match head_of(&self.buffer[self.at..])? {
                    None => return Ok(None),
                    Some((head, size)) => self.begin(head, size)?,
                },
                State::Payload(head, _) if head.opcode.is_control() => match self.control(head)? {
                    None => return Ok(None),
                    found => found,
                },
                State::Payload(head, taken) => match self.piece(head, taken)? {
                    false => return Ok(None),
                    true => self.whole(head)?,
                },
            };
            if found.is_some() {
                return Ok(found);
            }
        }
    }

    /// A frame's head is there: whether the frame may come, before a byte of it is kept.
    fn begin(&mut self, head: Head, size: usize) -> Result<Option<Incoming>, Ended> {
        if !head.opcode.is_control() {
            self.check_turn(head.opcode)?;
            let text = self.text.get_or_insert_with(Text::default);
            if head.length > (self.most - text.bytes.len()) as u64 {
                return Err(frames::TOO_LONG);
            }
        }
        self.at += size;
        self.state = State::Payload(head, 0);
        Ok(None)
    }

    fn check_turn(&self, opcode: Opcode) -> Result<(), Ended> {
        match (opcode, &self.text) {
            (Opcode::Continuation, None) => Err(frames::NOTHING_TO_GO_ON),
            (Opcode::Text | Opcode::Binary, Some(_)) => Err(frames::NOT_AT_ITS_END),
            (Opcode::Binary, None) => Err(frames::NO_TEXT),
            _ => Ok(()),
        }
    }

    fn control(&mut self, head: Head) -> Result<Option<Incoming>, Ended> {
        // A control frame has 125 bytes at most, so the length fits.
        let end = self.at + head.length as usize;
        let Some(payload) = self.buffer.get(self.at..end) else { return Ok(None) };
        let mut payload = payload.to_vec();
        unmask(&mut payload, head.mask, 0);
        self.at = end;
        self.state = State::Head;
        match head.opcode {
            Opcode::Ping => Ok(Some(Incoming::Ping(payload))),
            Opcode::Pong => Ok(Some(Incoming::Pong(payload))),
            _ => closing(&payload).map(Some),
        }
    }

    /// Takes what is there of a payload: whether that was its rest.
    fn piece(&mut self, head: Head, taken: u64) -> Result<bool, Ended> {
        let left = head.length - taken;
        let waiting = &self.buffer[self.at..];
        // What is left is below `most`, so it fits.
        let count = waiting.len().min(left as usize);
        if let Some(text) = &mut self.text {
            text.add(&waiting[..count], head.mask, taken, self.most)?;
        }
        self.at += count;
        self.state = State::Payload(head, taken + count as u64);
        Ok(count as u64 == left)
    }

    /// A frame of a text is whole, and so is the text where this is its last one.
    fn whole(&mut self, head: Head) -> Result<Option<Incoming>, Ended> {
        self.state = State::Head;
        if !head.is_last {
            return Ok(None);
        }
        let bytes = self.text.take().unwrap_or_default().bytes;
        String::from_utf8(bytes).map(|text| Some(Incoming::Text(text))).map_err(|_| frames::NO_UTF8)
    }
}

impl Text {
    fn add(&mut self, piece: &[u8], mask: [u8; 4], before: u64, most: usize) -> Result<(), Ended> {
        let start = self.bytes.len();
        self.make_room(start + piece.len(), most)?;
        self.bytes.extend_from_slice(piece);
        unmask(&mut self.bytes[start..], mask, before);
        self.check()
    }

    /// Doubles the room, but not beyond the most that a message may have. Nothing of it was taken, so where there is no
    /// memory it may be sent again.
    fn make_room(&mut self, needed: usize, most: usize) -> Result<(), Ended> {
        if needed <= self.bytes.capacity() {
            return Ok(());
        }
        let wanted = needed.max(2 * self.bytes.capacity()).min(most);
        self.bytes.try_reserve_exact(wanted - self.bytes.len()).map_err(|_| frames::NO_MEMORY)
    }

    /// Checks what came, but for the beginning of a character at its end.
    fn check(&mut self) -> Result<(), Ended> {
        match std::str::from_utf8(&self.bytes[self.checked..]) {
            Ok(_) => self.checked = self.bytes.len(),
            Err(error) if error.error_len().is_none() => self.checked += error.valid_up_to(),
            Err(_) => return Err(frames::NO_UTF8),
        }
        Ok(())
    }
}

fn closing(payload: &[u8]) -> Result<Incoming, Ended> {
    let Some((&number, why)) = payload.split_first_chunk() else {
        // A single byte is no code.
        return if payload.is_empty() {
            Ok(Incoming::Close { code: None, why: String::new() })
        } else {
            Err(frames::CLOSE_CODE)
        };
    };
    let code = u16::from_be_bytes(number);
    if !may_be_sent(code) {
        return Err(frames::CLOSE_CODE);
    }
    let why = std::str::from_utf8(why).map_err(|_| frames::NO_UTF8)?;
    Ok(Incoming::Close { code: Some(code), why: why.to_string() })
}

/// Codes that a close frame may have: those of the registry, and those that are free for libraries and programs.
fn may_be_sent(number: u16) -> bool {
    matches!(number, code::NORMAL..=code::NO_TEXT | code::NO_UTF8..=1014 | 3000..=4999)
}
