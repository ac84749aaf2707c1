//! How full memory is: `lines` refuses rows above `--max-memory`. `closing` looks each second, and `door` behind work that
//! has taken some.
//!
//! Resident memory alone would say `full` for ever, because a process keeps what it once had: room of versions that
//! were collected is used again, and isn't given back. So from the moment at which memory was full, what is written and
//! what is collected is counted beside it.
//!
//! 1. It is full while resident memory is above the limit, unless more was collected since than was written.
//! 2. Where resident memory grows nonetheless, counting begins anew.
//! 3. Between two looks it becomes full once more was written than there was room for.
//! 4. Rows are written for `OFTEN` at most until it is looked at again, because each takes more than it counts: its event
//!    is kept for the transcript. What is taken above the limit is `reserve`'s.
//! 5. While resident memory is above the limit, each kind of `growth` is `share_of` it above the least that there was of it
//!    since. So nobody fills it by what isn't rows, and each goes on as what was before is closed, collected, or ended.

use crate::growth::Grown;
use std::time::{Duration, Instant};

/// How long rows are written until it is looked at anew.
const OFTEN: Duration = Duration::from_millis(20);
/// Bytes that a version takes beside its key and value, as docs/OPERATING.md measures it.
pub const ROW: u64 = 165;
/// What each kind of growth may have, where a share of the limit is less.
const LEAST_SHARE: u64 = 4 << 20;
/// Parts of the limit: what each kind of growth may have, of which there are so many shares, what one reader may hold
/// while memory is full, and where deletes wait for it. The last is so much less than the first that a reader is let go
/// before deletes are refused.
const GROWTH: u64 = 32;
const SHARES: u64 = 4;
const READER: u64 = 8;
const READER_IN_THE_WAY: u64 = 200;

#[derive(Debug)]
pub struct Memory {
    most: Option<u64>,
    full: Option<Full>,
    /// What may be written until the next look: nothing while it is full.
    room: Option<u64>,
    /// What was written when it was looked at.
    written: u64,
    looked: Option<Instant>,
    /// The least that had grown of each kind since resident memory was above the limit.
    least: Option<Grown>,
}

/// What was counted when memory was found full.
#[derive(Clone, Copy, Debug)]
struct Full {
    resident: u64,
    written: u64,
    freed: u64,
}

impl Memory {
    /// No limit where it is `None`.
    pub fn new(most: Option<u64>) -> Memory {
        Memory { most, full: None, room: Some(u64::MAX), written: 0, looked: None, least: None }
    }

    /// Whether it has to be looked at now, where so much was written since the start.
    pub fn is_due(&self, written: u64, now: Instant) -> bool {
        let is_old = |at| now.saturating_duration_since(at) >= OFTEN;
        self.most.is_some() && written != self.written && self.looked.is_none_or(is_old)
    }

    /// Whether it is full once so much was written since the start.
    pub fn is_full(&self, written: u64) -> bool {
        self.room.is_none_or(|room| written.saturating_sub(self.written) > room)
    }

    /// How much of it one reader may hold while it is full, or while deletes wait for it. Without a limit it is never full.
    pub fn share_while_full(&self, grown: Grown) -> u64 {
        let part = match self.growth(grown).deleted {
            Growing::Free if self.room.is_some() => return u64::MAX,
            Growing::Free => READER,
            Growing::Pressed | Growing::Over => READER_IN_THE_WAY,
        };
        self.most.map_or(u64::MAX, |most| most / part)
    }

    /// How far each kind has grown of what it may.
    pub fn growth(&self, grown: Grown) -> Grown<Growing> {
        let (Some(least), Some(most)) = (self.least, self.most) else { return Grown::default() };
        least.zip(grown, |least, now| match now.saturating_sub(least) {
            more if more >= share_of(most) => Growing::Over,
            more if more >= share_of(most) / 2 => Growing::Pressed,
            _ => Growing::Free,
        })
    }

    /// What there is now: resident bytes, bytes that were taken and given back since the start, and what has grown.
    pub fn look(&mut self, resident: u64, written: u64, freed: u64, grown: Grown) {
        let Some(most) = self.most else { return };
        (self.written, self.looked) = (written, Some(Instant::now()));
        if resident <= most {
            (self.full, self.room, self.least) = (None, Some(most - resident), None);
            return;
        }
        self.least = Some(self.least.unwrap_or(grown).zip(grown, u64::min));
        let now = Full { resident, written, freed };
        let since = *self.full.get_or_insert(now);
        if resident > since.resident + most / 64 {
            (self.full, self.room) = (Some(now), None);
        } else {
            // What was freed is an estimate by the length of rows, which may become less.
            let freed = freed.saturating_sub(since.freed);
            self.room = freed.checked_sub(written - since.written).filter(|&room| room > 0);
        }
    }
}

/// How far something has grown while memory is full.
#[derive(Clone, Copy, Debug, Default, PartialEq, Eq, PartialOrd, Ord)]
pub enum Growing {
    #[default]
    Free,
    /// By a half of what it may, so what holds it up has to go.
    Pressed,
    /// As far as it may.
    Over,
}

/// What each kind of growth may have while memory is full.
pub fn share_of(most: u64) -> u64 {
    (most / GROWTH).max(LEAST_SHARE)
}

/// What all kinds may take. The library keeps what transactions have read until it has doubled, though it is closed.
pub fn growth_of(most: u64) -> u64 {
    SHARES * share_of(most)
}

/// The greatest limit that is such that it and what may grow are within so many bytes.
pub fn within(bytes: u64) -> u64 {
    let most = bytes / (GROWTH + SHARES) * GROWTH;
    most.min(bytes.saturating_sub(growth_of(most)))
}

#[cfg(test)]
mod tests {
    use super::*;

    const NOTHING: Grown = Grown { open: 0, deleted: 0, held: 0 };

    #[test]
    fn without_a_limit_it_is_never_full() {
        let mut memory = Memory::new(None);
        memory.look(u64::MAX, 0, 0, NOTHING);
        assert!(!memory.is_full(0));
    }

    #[test]
    fn it_is_full_above_the_limit() {
        let mut memory = Memory::new(Some(1000));
        memory.look(1000, 0, 0, NOTHING);
        assert!(!memory.is_full(0));
        memory.look(1001, 0, 0, NOTHING);
        assert!(memory.is_full(0));
        memory.look(999, 0, 0, NOTHING);
        assert!(!memory.is_full(0));
    }

    #[test]
    fn what_was_collected_can_be_written_again() {
        let mut memory = Memory::new(Some(1000));
        memory.look(1010, 500, 0, NOTHING);
        assert!(memory.is_full(500));
        memory.look(1010, 500, 100, NOTHING);
        assert!(!memory.is_full(500));
        memory.look(1010, 590, 100, NOTHING);
        assert!(!memory.is_full(590));
        memory.look(1010, 600, 100, NOTHING);
        assert!(memory.is_full(600));
    }

    #[test]
    fn between_two_looks_no_more_is_written_than_there_is_room() {
        let mut memory = Memory::new(Some(1000));
        memory.look(900, 70, 0, NOTHING);
        assert!(!memory.is_full(170) && memory.is_full(171));
        memory.look(1010, 171, 0, NOTHING);
        memory.look(1010, 171, 50, NOTHING);
        assert!(!memory.is_full(221) && memory.is_full(222));
    }

    #[test]
    fn it_is_looked_at_again_once_rows_are_written_and_some_time_is_over() {
        let now = Instant::now();
        assert!(!Memory::new(None).is_due(1, now));
        let mut memory = Memory::new(Some(1000));
        assert!(memory.is_due(1, now) && !memory.is_due(0, now));
        memory.look(500, 7, 0, NOTHING);
        let soon = Instant::now() + OFTEN;
        assert!(!memory.is_due(8, now) && memory.is_due(8, soon) && !memory.is_due(7, soon));
    }

    #[test]
    fn while_it_is_full_each_kind_grows_by_a_share() {
        let (mut memory, share) = (Memory::new(Some(1000)), share_of(1000));
        let before = Grown { open: 5, deleted: 70, held: 9 };
        let (more, free) = (Grown { open: 5 + share, ..before }, Grown::default());
        memory.look(1000, 0, 0, before);
        assert_eq!(memory.growth(more), free);
        memory.look(1001, 0, 0, before);
        assert_eq!(memory.growth(before), free);
        assert_eq!(memory.growth(more), Grown { open: Growing::Over, ..free });
        assert_eq!(
            memory.growth(Grown { deleted: 70 + share / 2, held: 9 + share, ..before }),
            Grown { deleted: Growing::Pressed, held: Growing::Over, ..free }
        );
        // What was collected meanwhile doesn't grow again.
        memory.look(1001, 0, 0, Grown { open: 6, deleted: 20, ..before });
        for _ in 0..2 {
            assert_eq!(memory.growth(Grown { deleted: 19 + share, ..before }).deleted, Growing::Pressed);
            assert_eq!(memory.growth(Grown { deleted: 20 + share, ..before }).deleted, Growing::Over);
            memory.look(1001, 0, 0, more);
        }
        memory.look(999, 0, 0, more);
        assert_eq!(memory.growth(more), free);
    }

    #[test]
    fn a_reader_that_is_in_the_way_of_deletes_may_hold_less() {
        let mut memory = Memory::new(Some(6400));
        memory.look(6401, 0, 0, NOTHING);
        let deleted = |deleted| Grown { deleted, ..NOTHING };
        assert_eq!(memory.share_while_full(deleted(0)), 800);
        assert_eq!(memory.share_while_full(deleted(share_of(6400) / 2)), 32);
        // Also where rows have room, because others were collected.
        memory.look(6401, 0, 500, NOTHING);
        assert_eq!(memory.share_while_full(deleted(0)), u64::MAX);
        assert_eq!(memory.share_while_full(deleted(share_of(6400) / 2)), 32);
        memory.look(6400, 0, 0, NOTHING);
        assert_eq!(memory.share_while_full(deleted(u64::MAX)), u64::MAX);
    }

    #[test]
    fn what_grows_has_room_within_a_limit() {
        for bytes in [0, 7, 9 << 20, 72 << 20, 1 << 30, 7 << 40] {
            let most = within(bytes);
            assert!(most == 0 || most + growth_of(most) <= bytes, "{bytes}");
            assert!(bytes < 1 << 30 || most > bytes / 10 * 8, "{bytes}");
        }
    }

    #[test]
    fn it_stays_full_where_less_seems_to_be_freed() {
        let mut memory = Memory::new(Some(1000));
        memory.look(1010, 500, 700, NOTHING);
        memory.look(1010, 500, 600, NOTHING);
        assert!(memory.is_full(500));
    }

    #[test]
    fn where_it_grows_nonetheless_counting_begins_anew() {
        let mut memory = Memory::new(Some(1000));
        memory.look(1010, 0, 0, NOTHING);
        memory.look(1010, 0, 300, NOTHING);
        assert!(!memory.is_full(0));
        memory.look(1100, 100, 300, NOTHING);
        assert!(memory.is_full(100));
        memory.look(1100, 100, 301, NOTHING);
        assert!(!memory.is_full(100));
    }
}
