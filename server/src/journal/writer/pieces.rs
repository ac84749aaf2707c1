//! The lines of a batch. Short ones are gathered, and long ones are kept as they were handed over.
//!
//! ```text
//! add short, short     [short short]
//! add long             [short short] [long]
//! add short            [short short] [long] [short]
//! ```

/// Room that is kept for the lines of a batch. What is no longer is copied, to be written at once.
pub const ROOM: usize = 1 << 20;
/// Bytes of lines that are never copied.
const LONG: usize = 1 << 16;

#[derive(Default)]
pub struct Pieces {
    pieces: Vec<Vec<u8>>,
    /// The last piece gets no more.
    is_cut: bool,
}

impl Pieces {
    pub fn with_room() -> Pieces {
        Pieces { pieces: vec![Vec::with_capacity(ROOM)], is_cut: false }
    }

    pub fn is_empty(&self) -> bool {
        self.pieces.iter().all(Vec::is_empty)
    }

    pub fn all(&self) -> Vec<&[u8]> {
        self.pieces.iter().map(Vec::as_slice).collect()
    }

    pub fn add(&mut self, lines: Vec<u8>) {
        if lines.len() >= LONG {
            self.pieces.push(lines);
            self.is_cut = true;
            return;
        }
        match self.pieces.last_mut().filter(|last| !self.is_cut && last.len() < ROOM) {
            Some(last) => last.extend_from_slice(&lines),
            None => {
                self.pieces.push(lines);
                self.is_cut = false;
            }
        }
    }

    /// What comes from here on begins a piece. Gives how many there are.
    pub fn cut(&mut self) -> usize {
        self.is_cut = true;
        self.pieces.len()
    }

    /// No lines, and the room of the first piece.
    pub fn emptied(mut self) -> Pieces {
        self.pieces.truncate(1);
        for first in &mut self.pieces {
            first.clear();
            first.shrink_to(ROOM);
        }
        Pieces { is_cut: false, ..self }
    }
}

#[cfg(test)]
mod tests {
    use super::*;

    fn lengths(pieces: &Pieces) -> Vec<usize> {
        pieces.all().iter().map(|piece| piece.len()).collect()
    }

    #[test]
    fn short_lines_are_gathered_and_long_ones_are_not_copied() {
        let (mut pieces, long) = (Pieces::with_room(), vec![b'x'; LONG]);
        let place = long.as_ptr();
        pieces.add(b"ab".to_vec());
        pieces.add(b"c".to_vec());
        pieces.add(long);
        pieces.add(b"de".to_vec());
        pieces.add(b"f".to_vec());
        assert_eq!(lengths(&pieces), [3, LONG, 3]);
        assert_eq!((pieces.all()[0], pieces.all()[1].as_ptr(), pieces.all()[2]), (&b"abc"[..], place, &b"def"[..]));
    }

    #[test]
    fn what_comes_behind_a_cut_begins_a_piece() {
        let mut pieces = Pieces::default();
        assert_eq!((pieces.cut(), pieces.is_empty()), (0, true));
        pieces.add(b"ab".to_vec());
        assert_eq!(pieces.cut(), 1);
        pieces.add(b"c".to_vec());
        pieces.add(b"d".to_vec());
        assert_eq!((lengths(&pieces), pieces.is_empty()), (vec![2, 2], false));
    }

    #[test]
    fn no_piece_that_gathers_becomes_much_longer_than_its_room() {
        let mut pieces = Pieces::with_room();
        (0..40).for_each(|_| pieces.add(vec![b'x'; LONG - 1]));
        assert!(lengths(&pieces).iter().all(|&length| length < ROOM + LONG));
        assert_eq!(lengths(&pieces).iter().sum::<usize>(), 40 * (LONG - 1));
    }

    #[test]
    fn the_room_of_the_first_piece_is_used_again() {
        let mut pieces = Pieces::with_room();
        let place = pieces.all()[0].as_ptr();
        pieces.add(b"ab".to_vec());
        pieces.add(vec![b'x'; LONG]);
        pieces.cut();
        let mut pieces = pieces.emptied();
        assert_eq!((lengths(&pieces), pieces.is_empty()), (vec![0], true));
        pieces.add(b"c".to_vec());
        assert_eq!((lengths(&pieces), pieces.all()[0].as_ptr()), (vec![1], place));
    }
}
