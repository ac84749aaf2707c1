//! Answers to requests with an `Idempotency-Key`, as the journal keeps them: in the batch of their commits, so that the
//! one is never there without the other.
//!
//! ```text
//! 0 commit 9
//! 0 readat .. key/8042/5d2f0c..1a/8be3a1..f0/9/put       the key, its request, and what it was answered at 9
//! 0 commit 10
//! 0 readat .. key/8043/77c10a..09/02abf3..d4/10/67       67 bytes of text were told, which follow
//! 0 readat .. told/{"timestamp":"10","branch":"then",..
//! ```
//!
//! Key and request are digests, so a line has room for each of them. The first number is the time, in milliseconds in
//! which servers of the database have run: it goes on from the last key's at each start. So time in which no server runs
//! doesn't count, and no two clocks are compared.
//!
//! 1. All of them come back, however many there are: `remembered` knows which of them still count.
//! 2. Of a key's answers the last one counts.

use super::note::Note;
use crate::lines::number_in;
use bytes::Bytes;
use std::cmp::Ordering;
use std::collections::VecDeque;
use std::io::Write;
use std::time::Duration;

/// Bytes of text in a line: a key has 256, of which five say what it is.
const PIECE: usize = 251;

/// What a request was answered once it had committed.
#[derive(Clone, Debug, PartialEq, Eq)]
pub struct Answered {
    /// When, in milliseconds.
    pub time: u64,
    /// A digest of the token's name and of the key.
    pub named: u128,
    /// A digest of the request.
    pub asked: u128,
    pub timestamp: u64,
    pub form: Form,
}

/// How an answer is told.
#[derive(Clone, Debug, PartialEq, Eq)]
pub enum Form {
    /// As `PUT /key/KEY` tells its timestamp.
    Put,
    /// As `DELETE /key/KEY` does.
    Deleted,
    Text(Bytes),
}

/// What a note tells of an answer: its text follows in pieces.
#[derive(Clone, Debug, PartialEq, Eq)]
pub struct Key {
    time: u64,
    named: u128,
    asked: u128,
    timestamp: u64,
    form: Word,
}

#[derive(Clone, Copy, Debug, PartialEq, Eq)]
enum Word {
    Put,
    Deleted,
    /// So many bytes of text.
    Text(usize),
}

impl Key {
    fn of(answered: &Answered) -> Key {
        let &Answered { time, named, asked, timestamp, ref form } = answered;
        let form = match form {
            Form::Put => Word::Put,
            Form::Deleted => Word::Deleted,
            Form::Text(text) => Word::Text(text.len()),
        };
        Key { time, named, asked, timestamp, form }
    }

    /// The key of a note's words behind `key/`.
    pub fn in_words(words: &str) -> Option<Key> {
        let mut words = words.split('/');
        let time = number_in(words.next()?.as_bytes())?;
        let (named, asked) = (digest_in(words.next()?)?, digest_in(words.next()?)?);
        let timestamp = number_in(words.next()?.as_bytes())?;
        let form = match words.next()? {
            "put" => Word::Put,
            "deleted" => Word::Deleted,
            length => Word::Text(usize::try_from(number_in(length.as_bytes())?).ok().filter(|&length| length > 0)?),
        };
        words.next().is_none().then_some(Key { time, named, asked, timestamp, form })
    }

    pub fn words(&self) -> String {
        let Key { time, named, asked, timestamp, form } = self;
        let form = match form {
            Word::Put => "put".to_string(),
            Word::Deleted => "deleted".to_string(),
            Word::Text(length) => length.to_string(),
        };
        format!("key/{time}/{named:032x}/{asked:032x}/{timestamp}/{form}")
    }
}

fn digest_in(word: &str) -> Option<u128> {
    let is_hex = |byte: u8| matches!(byte, b'0'..=b'9' | b'a'..=b'f');
    let digest = Some(word).filter(|word| word.len() == 32 && word.bytes().all(is_hex))?;
    u128::from_str_radix(digest, 16).ok()
}

impl Answered {
    /// Puts its lines behind others.
    pub fn write(&self, out: &mut Vec<u8>) {
        let text: &[u8] = if let Form::Text(text) = &self.form { text } else { b"" };
        let pieces = text.chunks(PIECE).map(|piece| Note::Told(piece.to_vec()));
        // Writing to a vector can't fail.
        [Note::Key(Key::of(self))].into_iter().chain(pieces).for_each(|note| drop(write!(out, "{note}")));
    }
}

/// The answers that a journal tells, the oldest first.
#[derive(Debug, Default)]
pub struct Answers {
    all: VecDeque<Answered>,
    /// One whose text isn't there as a whole.
    open: Option<(Key, Vec<u8>)>,
}

impl Answers {
    /// Takes a key's note. `None` where the text before it isn't whole.
    pub fn key(&mut self, key: Key) -> Option<()> {
        if self.open.is_some() {
            return None;
        }
        match key.form {
            Word::Put => self.add(&key, Form::Put),
            Word::Deleted => self.add(&key, Form::Deleted),
            Word::Text(_) => self.open = Some((key, Vec::new())),
        }
        Some(())
    }

    /// Takes a piece of the text that is open. `None` where none is, or it has less.
    pub fn piece(&mut self, piece: &[u8]) -> Option<()> {
        let (key, mut text) = self.open.take()?;
        let Word::Text(length) = key.form else { return None };
        text.extend_from_slice(piece);
        match text.len().cmp(&length) {
            Ordering::Less => self.open = Some((key, text)),
            Ordering::Equal => self.add(&key, Form::Text(text.into())),
            Ordering::Greater => return None,
        }
        Some(())
    }

    fn add(&mut self, key: &Key, form: Form) {
        let &Key { time, named, asked, timestamp, .. } = key;
        self.all.push_back(Answered { time, named, asked, timestamp, form });
    }

    /// Drops those that were told so long before the last one.
    pub fn forget(&mut self, time: Duration) {
        let last = self.all.back().map_or(0, |last| last.time);
        while self.all.front().is_some_and(|first| Duration::from_millis(last.saturating_sub(first.time)) > time) {
            self.all.pop_front();
        }
    }

    pub fn into_all(self) -> VecDeque<Answered> {
        self.all
    }
}

#[cfg(test)]
mod tests {
    use super::super::frame::CARRIER;
    use super::*;

    fn answered(named: u128, form: Form) -> Answered {
        Answered { time: 8042, named, asked: u128::MAX - named, timestamp: 9, form }
    }

    /// What a journal of these lines tells.
    fn told(lines: &[u8]) -> Option<VecDeque<Answered>> {
        let mut answers = Answers::default();
        for line in lines.split_inclusive(|&byte| byte == b'\n') {
            match Note::of(line)? {
                Note::Key(key) => answers.key(key)?,
                Note::Told(piece) => answers.piece(&piece)?,
                _ => return None,
            }
        }
        answers.open.is_none().then_some(answers.all)
    }

    fn lines(all: &[Answered]) -> Vec<u8> {
        let mut lines = Vec::new();
        all.iter().for_each(|one| one.write(&mut lines));
        lines
    }

    #[test]
    fn answers_come_back() {
        let texts = [1, PIECE - 1, PIECE, PIECE + 1, 3 * PIECE].map(|length| "\u{e4}".repeat(length) + " \"=>\"\n");
        let mut all: Vec<Answered> =
            texts.into_iter().zip(1..).map(|(text, named)| answered(named, Form::Text(text.into()))).collect();
        all.extend([answered(6, Form::Put), answered(0, Form::Deleted), answered(6, Form::Text("-".into()))]);
        let lines = lines(&all);
        assert_eq!(told(&lines).expect("they are right"), all);
        for line in lines.split(|&byte| byte == b'\n').filter(|line| !line.is_empty()) {
            assert_eq!(line.iter().filter(|&&byte| byte == b' ').count(), 3);
            assert!(line.len() <= CARRIER.len() + 3 * 256);
        }
    }

    #[test]
    fn half_an_answer_is_none() {
        let whole = lines(&[answered(1, Form::Text("x".repeat(2 * PIECE).into())), answered(2, Form::Put)]);
        let ends: Vec<usize> = (0..whole.len()).filter(|&at| whole[at] == b'\n').map(|at| at + 1).collect();
        let [key, first, second, other] = ends[..] else { panic!("{ends:?}") };
        assert!(told(&whole[..second]).is_some() && told(&whole).is_some());
        for wrong in [
            &whole[..key],
            &whole[..first],
            &whole[key..second],
            &[&whole[..first], &whole[second..]].concat()[..],
            &[&whole[..second], &whole[first..second], &whole[second..other]].concat()[..],
        ] {
            assert_eq!(told(wrong), None);
        }
        // A piece that has more than is left.
        let short = String::from_utf8(whole).expect("text").replace("/9/502", "/9/400");
        assert_eq!(told(short.as_bytes()), None);
    }

    #[test]
    fn all_of_them_come_back_however_long_they_are() {
        let mut answers = Answers::default();
        let key = |named: u128, form| Key { time: 1, named, asked: 0, timestamp: 1, form };
        let text = vec![b'x'; 40 << 20];
        for named in 0..200_003 {
            answers.key(key(named, Word::Put)).expect("it is right");
        }
        answers.key(key(7, Word::Text(text.len()))).expect("it is right");
        answers.piece(&text).expect("it is right");
        assert_eq!((answers.all.len(), answers.all.front().map(|first| first.named)), (200_004, Some(0)));
    }
}
