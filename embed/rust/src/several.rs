//! The calls of many lines at once.

use crate::database::Database;
use crate::error::CallError;
use crate::event::Event;
use crate::raw::Done;

/// Rows of a scan that [`Database::calls_within`] lets through, at most.
pub const MOST_ROWS: usize = 32_768;

impl Database {
    /// Makes the calls of lines, one after another, each up to its newline: a result a line, in their order.
    ///
    /// A faulty line makes no call, and the next one is taken. Three errors end it, and are the last result:
    /// [`CallError::NoMemory`] and [`CallError::Spent`] before their line, and [`CallError::Unwritten`] behind it, whose
    /// call was made; [`Database::text`] asks for its text again. [`Calls::taken`] says where to go on.
    ///
    /// ```
    /// use ripsawbean::{CallError, Database, LineFault};
    ///
    /// let mut db = Database::open(1024).expect("it opens");
    /// let calls = db.calls("0 begin 10\n0 put 10 a\n0 put 10 a 1\n");
    /// let told: Vec<_> = calls.map(|result| result.map(|event| event.text())).collect();
    /// assert_eq!(
    ///     told,
    ///     [Ok("0 0 begin 10 => started\n"), Err(CallError::Line(LineFault::WordCount)), Ok("1 0 put 10 a 1 => written\n")]
    /// );
    /// ```
    pub fn calls(&mut self, lines: impl AsRef<[u8]>) -> Calls<'_> {
        self.calls_within(lines, u64::MAX)
    }

    /// The same, but that a scan or a poll whose answer would have more than `most` bytes of rows or messages makes no
    /// call: its result is [`CallError::AnswerTooLong`], and the next line is taken. A row or a message has the bytes of
    /// its key and its value, and 17 more. The same comes of a scan of more than [`MOST_ROWS`] rows, because its time goes
    /// with them. [`u64::MAX`] lets all through.
    pub fn calls_within(&mut self, lines: impl AsRef<[u8]>, most: u64) -> Calls<'_> {
        let lines = lines.as_ref();
        let count = lines.iter().filter(|&&byte| byte == b'\n').count() + 1;
        let (mut texts, mut taken, mut end) = (0, 0, None);
        self.notes.clear();
        // No call is made where there is no room for notes of all. A text is its line, with a position and an answer.
        if self.notes.try_reserve(count).is_err() || self.make_room((lines.len() + 64 * count) / 2).is_err() {
            return Calls { texts: "", notes: [].iter(), end: Some(CallError::NoMemory), taken };
        }
        while taken < lines.len() && end.is_none() {
            let first = self.notes.len();
            self.notes.resize(count.max(first + 1), Done::default());
            let (now, status) =
                self.open.calls(&lines[taken..], &mut self.out[texts..], &mut self.notes[first..], most);
            self.notes.truncate(first + now.lines);
            taken += now.bytes;
            texts += now.length;
            end = match status {
                0 => None,
                14 => self.show_last(&mut texts).err(),
                status => Some(CallError::of(status)),
            };
        }
        let texts = std::str::from_utf8(&self.out[..texts]).expect("the library writes printable ASCII");
        Calls { texts, notes: self.notes.iter(), end, taken }
    }

    /// Shows the text of the last line that was taken behind the others, with more room.
    fn show_last(&mut self, texts: &mut usize) -> Result<(), CallError> {
        // Until it is shown the line has no note: its error is the end.
        let note = self.notes.pop().expect("a line was taken");
        let mut length = note.length;
        loop {
            self.make_room(*texts + length)?;
            length = self.open.text(&mut self.out[*texts..]).map_err(CallError::of)?;
            if length <= self.out.len() - *texts {
                break;
            }
        }
        self.notes.push(Done { length, status: 0 });
        *texts += length;
        Ok(())
    }
}

/// What became of lines: an event or an error for each, as they stand.
#[derive(Debug)]
pub struct Calls<'a> {
    texts: &'a str,
    notes: std::slice::Iter<'a, Done>,
    end: Option<CallError>,
    taken: usize,
}

impl Calls<'_> {
    /// How many bytes of the lines were taken. What stands behind them, where an error ended it, was not looked at but
    /// for that error's line.
    pub fn taken(&self) -> usize {
        self.taken
    }
}

impl<'a> Iterator for Calls<'a> {
    type Item = Result<Event<'a>, CallError>;

    fn next(&mut self) -> Option<Result<Event<'a>, CallError>> {
        let Some(note) = self.notes.next() else { return self.end.take().map(Err) };
        if note.status != 0 {
            return Some(Err(CallError::of(note.status)));
        }
        let (text, rest) = self.texts.split_at(note.length);
        self.texts = rest;
        Some(Ok(Event::new(text)))
    }

    fn size_hint(&self) -> (usize, Option<usize>) {
        let count = self.notes.len() + usize::from(self.end.is_some());
        (count, Some(count))
    }
}

impl ExactSizeIterator for Calls<'_> {}
