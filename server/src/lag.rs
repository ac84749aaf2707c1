//! How many rows, and bytes of their lines, were closed above a timestamp: what it costs to hold the horizon there.
//!
//! `ledger` tells it of each commit and closing; `closing`, `names`, `reports` and `metrics` ask it. It costs the
//! same whatever a reader's span is, because versions of all keys are kept above the horizon.
//!
//! 1. `total` is what was committed at or below closed.
//! 2. The timestamps of `steps` rise, and each has what `total` was once closed stood there.
//!
//! ```text
//! commits 1 row at 5, 2 rows at 8; closed 10; commits 4 rows at 12; closed 20
//! steps (0, 0) (10, 3) (20, 7)        above(10) = 4, above(3) = 7
//! ```

use std::cmp::Reverse;
use std::collections::{BinaryHeap, VecDeque};
use std::ops::{AddAssign, Sub};

/// Rows, and bytes of the lines that wrote them.
#[derive(Clone, Copy, Debug, Default, PartialEq, Eq, PartialOrd, Ord)]
pub struct Amount {
    pub rows: u64,
    pub bytes: u64,
}

impl Amount {
    /// Whether it is more than another in rows or in bytes.
    pub fn exceeds(self, most: Amount) -> bool {
        self.rows > most.rows || self.bytes > most.bytes
    }
}

impl AddAssign for Amount {
    fn add_assign(&mut self, more: Amount) {
        self.rows += more.rows;
        self.bytes += more.bytes;
    }
}

impl Sub for Amount {
    type Output = Amount;

    fn sub(self, less: Amount) -> Amount {
        Amount { rows: self.rows - less.rows, bytes: self.bytes - less.bytes }
    }
}

#[derive(Debug)]
pub struct ClosedRows {
    /// All at or below closed.
    pub total: Amount,
    /// Commits above closed, the lowest first.
    waiting: BinaryHeap<Reverse<(u64, Amount)>>,
    steps: VecDeque<(u64, Amount)>,
}

impl Default for ClosedRows {
    fn default() -> ClosedRows {
        let nothing = Amount::default();
        ClosedRows { total: nothing, waiting: BinaryHeap::new(), steps: VecDeque::from([(0, nothing)]) }
    }
}

impl ClosedRows {
    /// A transaction has committed.
    pub fn commit(&mut self, timestamp: u64, amount: Amount) {
        if amount.rows > 0 {
            self.waiting.push(Reverse((timestamp, amount)));
        }
    }

    /// Closed stands here now.
    pub fn close(&mut self, at: u64) {
        let before = self.total;
        while let Some(&Reverse((timestamp, amount))) = self.waiting.peek() {
            if timestamp > at {
                break;
            }
            self.total += amount;
            self.waiting.pop();
        }
        if self.total != before {
            self.steps.push_back((at, self.total));
        }
    }

    /// Whether there are commits above closed.
    pub fn has_waiting(&self) -> bool {
        !self.waiting.is_empty()
    }

    /// What is closed above a timestamp. All of the closing in which it lies is counted too.
    pub fn above(&self, timestamp: u64) -> Amount {
        self.total - self.steps.get(self.place(timestamp)).map_or(Amount::default(), |step| step.1)
    }

    /// The timestamp that lies so many rows above another at most, or one closing above it.
    pub fn further(&self, timestamp: u64, rows: u64) -> u64 {
        let place = self.place(timestamp);
        let Some(&(_, here)) = self.steps.get(place) else { return u64::MAX };
        let next = self.steps.partition_point(|(_, total)| total.rows - here.rows.min(total.rows) <= rows);
        // The next step has more rows than asked, so all below it has not.
        match self.steps.get(next.max(place + 2)) {
            Some(_) => self.steps[next.max(place + 2) - 1].0,
            None => u64::MAX,
        }
    }

    /// No one asks below this timestamp any more.
    pub fn forget_below(&mut self, timestamp: u64) {
        self.steps.drain(..self.place(timestamp));
    }

    /// Where the last step at or below a timestamp stands, or the first one of all.
    fn place(&self, timestamp: u64) -> usize {
        self.steps.partition_point(|&(at, _)| at <= timestamp).saturating_sub(1)
    }
}

#[cfg(test)]
mod tests {
    use super::*;

    fn rows(rows: u64) -> Amount {
        Amount { rows, bytes: 10 * rows }
    }

    /// The example of the head.
    fn example() -> ClosedRows {
        let mut closed = ClosedRows::default();
        closed.commit(8, rows(2));
        closed.commit(5, rows(1));
        closed.close(10);
        closed.commit(12, rows(4));
        assert_eq!(closed.above(10), rows(0));
        closed.close(20);
        closed
    }

    #[test]
    fn rows_above_a_timestamp() {
        let closed = example();
        assert_eq!(closed.total, rows(7));
        for (timestamp, above) in [(0, 7), (3, 7), (9, 7), (10, 4), (19, 4), (20, 0), (99, 0)] {
            assert_eq!(closed.above(timestamp), rows(above), "above {timestamp}");
        }
    }

    #[test]
    fn what_is_forgotten_changes_nothing_above() {
        let mut closed = example();
        closed.forget_below(15);
        assert_eq!([10, 19, 20].map(|at| closed.above(at)), [rows(4), rows(4), rows(0)]);
        closed.forget_below(99);
        assert_eq!(closed.above(20), rows(0));
        closed.commit(30, rows(5));
        closed.close(30);
        assert_eq!([20, 29, 30].map(|at| closed.above(at)), [rows(5), rows(5), rows(0)]);
    }

    #[test]
    fn closings_without_rows_are_no_steps() {
        let mut closed = example();
        for at in 21..1000 {
            closed.close(at);
        }
        assert_eq!(closed.steps.len(), 3);
    }

    #[test]
    fn further_by_rows() {
        let mut closed = ClosedRows::default();
        for at in 1..=10 {
            closed.commit(at * 10, rows(3));
            closed.close(at * 10);
        }
        assert_eq!(closed.further(0, 6), 20);
        assert_eq!(closed.further(25, 9), 50);
        // A closing of more rows than asked is one step.
        assert_eq!(closed.further(0, 1), 10);
        assert_eq!(closed.further(10, 0), 20);
        assert_eq!(closed.further(80, 100), u64::MAX);
        assert_eq!(closed.further(100, 0), u64::MAX);
    }

    #[test]
    fn either_of_rows_and_bytes_exceeds() {
        let most = Amount { rows: 5, bytes: 100 };
        assert!(!Amount { rows: 5, bytes: 100 }.exceeds(most));
        assert!(Amount { rows: 6, bytes: 0 }.exceeds(most));
        assert!(Amount { rows: 0, bytes: 101 }.exceeds(most));
    }
}
