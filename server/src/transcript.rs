//! The last events, as a transcript: `GET /transcript`.
//!
//! `core` adds each event. Events stand in their order, whole, without a gap. So a transcript that begins at position 0
//! is all that the database did, and `mvfeed check` can judge it; one whose beginning was dropped is for looking at
//! alone.
//!
//! 1. Kept are the last `most` events at least, and an eighth more at most, as far as their text has room in
//!    `most_bytes`.
//! 2. `first` is the position of the first event that is kept, `next()` that of the next event of the database.

use std::collections::VecDeque;

#[derive(Debug)]
pub struct Transcript {
    most: usize,
    most_bytes: usize,
    /// The position of the first event that is kept.
    pub first: u64,
    events: VecDeque<Box<str>>,
    bytes: usize,
}

impl Transcript {
    pub fn new(most: usize, most_bytes: usize) -> Transcript {
        Transcript { most, most_bytes, first: 0, events: VecDeque::new(), bytes: 0 }
    }

    /// The position of the database's next event.
    pub fn next(&self) -> u64 {
        self.first + self.events.len() as u64
    }

    /// Adds the next event. Where there is no memory for it, those before it go, and at last it goes itself.
    pub fn add(&mut self, text: &str) {
        if text.len() > self.most_bytes || self.most == 0 {
            return self.begin_at(self.next() + 1);
        }
        if !self.keeps(text) {
            self.begin_at(self.next());
            if !self.keeps(text) {
                return self.begin_at(self.next() + 1);
            }
        }
        if self.bytes > self.most_bytes || self.events.len() > self.most + self.most / 8 {
            self.drop_first();
        }
    }

    /// Drops all, and goes on from a position.
    pub fn begin_at(&mut self, position: u64) {
        self.events = VecDeque::new();
        (self.first, self.bytes) = (position, 0);
    }

    /// Events from one position to below another, as bytes: whole ones, until there are `most` bytes. With them comes
    /// the position to go on from. There are none where the first is kept no longer, or where there is no memory.
    pub fn piece(&self, from: u64, until: u64, most: usize) -> Option<(Vec<u8>, u64)> {
        let skipped = usize::try_from(from.checked_sub(self.first)?).unwrap_or(usize::MAX);
        let count = usize::try_from(until.saturating_sub(from)).unwrap_or(usize::MAX);
        let (mut data, mut next) = (Vec::new(), from);
        for text in self.events.range(skipped.min(self.events.len())..).take(count) {
            if data.len() >= most {
                break;
            }
            data.try_reserve(text.len()).ok()?;
            data.extend_from_slice(text.as_bytes());
            next += 1;
        }
        Some((data, next))
    }

    /// Keeps an event's text, where there is memory for it.
    fn keeps(&mut self, text: &str) -> bool {
        let mut copy = String::new();
        let has_room = copy.try_reserve_exact(text.len()).is_ok() && self.events.try_reserve(1).is_ok();
        if has_room {
            copy.push_str(text);
            self.events.push_back(copy.into_boxed_str());
            self.bytes += text.len();
        }
        has_room
    }

    fn drop_first(&mut self) {
        while self.bytes > self.most_bytes || self.events.len() > self.most {
            let Some(text) = self.events.pop_front() else { return };
            self.bytes -= text.len();
            self.first += 1;
        }
    }
}

#[cfg(test)]
mod tests {
    use super::*;

    fn all(transcript: &Transcript) -> String {
        let (data, next) = transcript.piece(transcript.first, u64::MAX, usize::MAX).expect("the first one is kept");
        assert_eq!(next, transcript.next());
        String::from_utf8(data).expect("text")
    }

    #[test]
    fn the_last_events_are_kept() {
        let mut transcript = Transcript::new(8, 1 << 20);
        for at in 0..9 {
            transcript.add(&format!("{at}\n"));
        }
        assert_eq!((transcript.first, transcript.next()), (0, 9));
        transcript.add("9\n");
        assert_eq!((transcript.first, transcript.next()), (2, 10));
        assert_eq!(all(&transcript), "2\n3\n4\n5\n6\n7\n8\n9\n");
    }

    #[test]
    fn text_has_a_bound_of_bytes() {
        let mut transcript = Transcript::new(16, 10);
        for text in ["abcd", "efgh", "ij"] {
            transcript.add(text);
        }
        assert_eq!((transcript.first, all(&transcript).as_str()), (0, "abcdefghij"));
        transcript.add("k");
        assert_eq!((transcript.first, all(&transcript).as_str()), (1, "efghijk"));
        // One that is longer than all the room leaves no gap: what was before it goes too.
        transcript.add("longer than all");
        assert_eq!((transcript.first, transcript.next(), transcript.bytes), (5, 5, 0));
        transcript.add("x");
        assert_eq!((transcript.first, all(&transcript).as_str()), (5, "x"));
    }

    #[test]
    fn pieces_are_whole_events() {
        let mut transcript = Transcript::new(100, 1 << 20);
        for at in 0..10 {
            transcript.add(&format!("event {at}\n"));
        }
        let piece = |from, until, most| transcript.piece(from, until, most);
        assert_eq!(piece(4, 10, 10), Some((b"event 4\nevent 5\n".to_vec(), 6)));
        assert_eq!(piece(4, 5, 10), Some((b"event 4\n".to_vec(), 5)));
        assert_eq!(piece(9, 10, 1), Some((b"event 9\n".to_vec(), 10)));
        for from in [10, 99, u64::MAX] {
            assert_eq!(piece(from, u64::MAX, 1), Some((Vec::new(), from)));
        }
    }

    #[test]
    fn what_is_dropped_is_not_passed_over() {
        let mut transcript = Transcript::new(1, 1 << 20);
        for at in 0..10 {
            transcript.add(&format!("{at}\n"));
        }
        assert_eq!(transcript.first, 9);
        assert_eq!(transcript.piece(8, 10, 100), None);
        assert_eq!(transcript.piece(9, 10, 100), Some((b"9\n".to_vec(), 10)));
    }

    #[test]
    fn nothing_is_kept_where_nothing_is_asked() {
        let mut transcript = Transcript::new(0, 1 << 20);
        transcript.add("0\n");
        transcript.add("1\n");
        assert_eq!((transcript.first, transcript.next(), all(&transcript).as_str()), (2, 2, ""));
    }
}
