//! Databases.

use crate::command::Command;
use crate::error::{CallError, OpenError, PollError, Unwritten};
use crate::event::{Event, Message};
use crate::raw::{Done, Open, Status};
use std::fmt;
use std::fmt::Write;
use std::vec::IntoIter;

/// A database, open for as long as it lives.
pub struct Database {
    pub(crate) open: Open,
    /// Room for a text. It grows to what the longest one needed.
    pub(crate) out: Vec<u8>,
    /// The line of the command that is made.
    line: String,
    /// What became of lines that were called at once.
    pub(crate) notes: Vec<Done>,
}

impl Database {
    /// Opens a new and empty database. `ring` is 1 to 65536, and has no effect.
    pub fn open(ring: u32) -> Result<Database, OpenError> {
        let open = Open::new(ring).map_err(OpenError::of)?;
        Ok(Database { open, out: vec![0; 4096], line: String::new(), notes: Vec::new() })
    }

    /// Makes the call of a line, with its newline, as `"0 put 10 apple 3\n"`. After each error but
    /// [`CallError::Unwritten`] the database is as it was.
    pub fn call(&mut self, line: impl AsRef<[u8]>) -> Result<Event<'_>, CallError> {
        let length = self.open.call(line.as_ref(), &mut self.out).map_err(CallError::of)?;
        Ok(self.event(length)?)
    }

    /// Makes a call of a seat, 0 to 63, from values. The event may be a refusal.
    pub fn make(&mut self, seat: u8, command: Command<'_>) -> Result<Event<'_>, CallError> {
        self.line.clear();
        writeln!(self.line, "{seat} {command}").expect("a string takes what is written");
        let length = self.open.call(self.line.as_bytes(), &mut self.out).map_err(CallError::of)?;
        Ok(self.event(length)?)
    }

    /// The last event once more, or `None` where no call was made yet. It makes no call.
    pub fn text(&mut self) -> Result<Option<Event<'_>>, Unwritten> {
        let length = self.open.text(&mut self.out).map_err(unwritten)?;
        if length == 0 {
            return Ok(None);
        }
        self.event(length).map(Some)
    }

    /// What an operator may ask of the database now, as lines of JSON: how far it is closed and collected and what
    /// holds it, the undecided transactions, the protections, and how far each feed has come. It makes no call.
    pub fn state(&mut self) -> Result<String, Unwritten> {
        let mut length = self.open.state(&mut self.out).map_err(unwritten)?;
        while length > self.out.len() {
            self.make_room(length)?;
            length = self.open.state(&mut self.out).map_err(unwritten)?;
        }
        let text = std::str::from_utf8(&self.out[..length]).expect("the library writes printable ASCII");
        Ok(text.to_string())
    }

    /// Gives back the room that a long text needed, but for so many bytes. It makes no call.
    pub fn shrink(&mut self, room: usize) {
        self.out.truncate(room);
        self.out.shrink_to(room);
    }

    /// The messages of a feed, up to where none is due, by polls of at most `max` each, 0 being taken as 1.
    ///
    /// A poll is made once the messages of the one before are taken. A message is told once: whoever stops midway in
    /// the messages of a poll has lost the others, and its consumer begins anew.
    pub fn messages(&mut self, seat: u8, feed: u64, max: u64) -> Messages<'_> {
        Messages { database: self, seat, feed, max: max.max(1), told: Vec::new().into_iter(), is_over: false }
    }

    /// The event whose text of this length was shown, as far as there was room.
    fn event(&mut self, mut length: usize) -> Result<Event<'_>, Unwritten> {
        while length > self.out.len() {
            // The call is made: with more room its text is asked for again.
            self.make_room(length)?;
            length = self.open.text(&mut self.out).map_err(unwritten)?;
        }
        let text = std::str::from_utf8(&self.out[..length]).expect("the library writes printable ASCII");
        Ok(Event::new(text))
    }

    /// Takes room for twice the length of a text, at least.
    pub(crate) fn make_room(&mut self, length: usize) -> Result<(), Unwritten> {
        let room = length.saturating_mul(2);
        if room > self.out.len() {
            self.out.try_reserve_exact(room - self.out.len()).map_err(|_| Unwritten)?;
            self.out.resize(room, 0);
        }
        Ok(())
    }
}

/// The only status, beside 0, of an open handle that is asked for its text.
pub(crate) fn unwritten(status: Status) -> Unwritten {
    assert_eq!(status, 14, "asking for a text returned {status}");
    Unwritten
}

impl fmt::Debug for Database {
    fn fmt(&self, f: &mut fmt::Formatter<'_>) -> fmt::Result {
        f.debug_struct("Database").finish_non_exhaustive()
    }
}

/// The messages of a feed. After an error it ends.
#[derive(Debug)]
pub struct Messages<'a> {
    database: &'a mut Database,
    seat: u8,
    feed: u64,
    max: u64,
    told: IntoIter<Message>,
    is_over: bool,
}

impl Messages<'_> {
    fn poll(&mut self) -> Result<Vec<Message>, PollError> {
        let event = self.database.make(self.seat, Command::Poll { feed: self.feed, max: self.max })?;
        match event.refusal() {
            Some(answer) => Err(PollError::Refused(answer.to_string())),
            None => Ok(event.messages().collect()),
        }
    }
}

impl Iterator for Messages<'_> {
    type Item = Result<Message, PollError>;

    fn next(&mut self) -> Option<Result<Message, PollError>> {
        if self.told.len() == 0 && !self.is_over {
            match self.poll() {
                Ok(messages) => {
                    self.is_over = (messages.len() as u64) < self.max;
                    self.told = messages.into_iter();
                }
                Err(e) => {
                    self.is_over = true;
                    return Some(Err(e));
                }
            }
        }
        self.told.next().map(Ok)
    }
}
