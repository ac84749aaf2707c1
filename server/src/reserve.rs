//! What the server may take beside the rows that `--max-memory` counts, at most: the reserve.
//!
//! At `--max-memory` rows are refused, and all else goes on: connections come, bodies and messages are read, answers
//! wait for their readers. Each of these has a bound, and the reserve is their sum. So a limit of the system's that lies
//! at `--max-memory` and the reserve, or above, is never reached, and nothing that asks for memory is refused it.
//!
//! ```text
//! 0 .. --max-memory                rows
//!      .. and the reserve          all else, whatever clients do
//! ```
//!
//! Where nobody has said what `--max-memory` is, it is what the system's limit leaves beside the reserve.
//!
//! 1. Each part is a bound that another module keeps. A vector that grows by itself may have twice its bytes.
//! 2. `serving` warns at its start where a limit is nearer, and `metrics` tells how much the reserve is.
//! 3. What is committed and waits for the disk is no part: it stands where the transaction had it, which counts as rows.
//! 4. What `--max-held` allows is no part: it has a share of its own while memory is full, as all that `growth` counts.

use crate::api::{pages, remembered};
use crate::memory;
use crate::options::Options;
use crate::reports;
use crate::seats::SEATS;
use crate::session;
use crate::shares::FREE;
use crate::socket;

/// The program itself, its tables, and what the C library keeps between its pieces.
const PROGRAM: usize = 48 << 20;
/// Addresses of a thread's stack.
const STACK: usize = 2 << 20;
/// Threads beside those that work for connections: the first one, the journal's, checkpoints', the log's.
const THREADS: usize = 5;
/// What a connection has in hand: 64 kB in each direction, and as much of a body and of an answer that don't count.
const CONNECTION: usize = 4 << 16;
/// The same of TLS, in both directions.
const TLS: usize = 1 << 16;
/// A piece of a stream, with values before. One waits, and one is written.
const PIECE: usize = 1 << 19;
const PIECES: usize = 2;
/// One that is made takes twice its text, and is laid out as events.
const MADE: usize = 3;
/// A consumer's name, with its protection.
const NAME: usize = 1 << 10;
/// What is written between two looks at memory, beside what it counts.
const BETWEEN_LOOKS: usize = 32 << 20;
/// What an event of the transcript takes beside its text.
const EVENT: usize = 32;
/// Bytes of text for a byte of a row: each may be spelled `%00`.
const SPELLED: usize = 3;

/// The reserve in bytes, for so many threads that work for connections: beside rows, and what grows while they are full.
pub fn reserve(options: &Options, workers: usize) -> u64 {
    let growth = options.max_memory.filter(|&most| most > 0).map_or(0, memory::growth_of);
    beside(options, workers).saturating_add(growth)
}

/// Bytes above which rows are refused, 0 for no limit: what was asked for, or what a limit of the system's leaves. Where
/// it leaves little, it is a half of the limit: then rows may be refused too late.
pub fn max_memory(options: &Options, workers: usize, limit: Option<u64>) -> u64 {
    let left = |limit: u64| memory::within(limit.saturating_sub(beside(options, workers))).max(limit / 2);
    options.max_memory.unwrap_or_else(|| limit.map_or(0, left))
}

fn beside(options: &Options, workers: usize) -> u64 {
    parts(options, workers).iter().fold(0, |sum: u64, &part| sum.saturating_add(part as u64))
}

fn parts(options: &Options, workers: usize) -> [usize; 10] {
    let Options { max_message, max_reply, max_answer, max_connections, max_feeds, keep, keep_bytes, .. } = *options;
    let (seats, twice) = (usize::from(SEATS), |bytes: usize| bytes.saturating_mul(2));
    let connection = CONNECTION + if options.tls.is_some() { TLS } else { 0 };
    [
        PROGRAM + BETWEEN_LOOKS + STACK * (workers + THREADS),
        keep_bytes.saturating_add(keep.saturating_mul(EVENT + EVENT / 8)),
        max_connections.saturating_mul(connection),
        twice(max_message.saturating_mul(seats)),
        max_message.saturating_add(socket::BESIDE).saturating_mul(seats),
        answers(max_reply, max_answer, workers),
        twice(reports::UNREAD),
        max_feeds.saturating_mul(PIECE * PIECES).saturating_add(MADE * PIECE * workers),
        options.max_consumers.saturating_mul(NAME),
        remembered::MOST_BYTES,
    ]
}

/// What answers take: unread ones, short ones that don't count, and those that are made. One message is answered at a
/// time, whose answers are copied once, and a line's text stands in the library's wrapper too. Of rows and transactions
/// each thread makes one.
fn answers(max_reply: usize, max_answer: usize, workers: usize) -> usize {
    let short = usize::from(SEATS) * 8 * FREE;
    let line = max_answer.saturating_mul(SPELLED);
    let message = max_reply.saturating_add(line);
    let made = message.saturating_mul(3).saturating_add(line.saturating_mul(2));
    let plan = max_reply.max(2 * pages::MOST_BYTES as usize).saturating_mul(3 * workers);
    (2 * session::UNREAD + short).saturating_add(made).saturating_add(plan)
}

#[cfg(test)]
mod tests {
    use super::*;
    use crate::testing::options;

    const SMALL: [&str; 14] = [
        "--max-message",
        "65536",
        "--max-reply",
        "65536",
        "--max-answer",
        "131072",
        "--max-connections",
        "100",
        "--max-feeds",
        "8",
        "--keep-bytes",
        "1000000",
        "--keep",
        "1000",
    ];

    #[test]
    fn what_is_bounded_lower_needs_less() {
        let (usual, small) = (reserve(&options(&[]), 4), reserve(&options(&SMALL), 4));
        assert!(usual < 1400 << 20 && small < 640 << 20, "{} MB, {} MB", usual >> 20, small >> 20);
        assert!(reserve(&options(&SMALL), 8) > small);
    }

    #[test]
    fn rows_have_what_a_limit_leaves() {
        let (usual, small) = (options(&[]), options(&SMALL));
        assert_eq!(max_memory(&usual, 4, None), 0);
        for (options, limit) in [(&usual, 4 << 30), (&usual, 3 << 30), (&small, 2 << 30)] {
            let most = max_memory(options, 4, Some(limit));
            let with = Options { max_memory: Some(most), ..options.clone() };
            let all = most + reserve(&with, 4);
            assert!(all <= limit && all > limit - (1 << 20), "{} of {} MB", all >> 20, limit >> 20);
            assert!(most >= limit / 2);
        }
        // A limit that leaves less is told of.
        assert_eq!(max_memory(&usual, 4, Some(1 << 30)), 1 << 29);
        for (word, most) in [("0", 0), ("77", 77)] {
            assert_eq!(max_memory(&options(&["--max-memory", word]), 4, Some(4 << 30)), most);
        }
    }

    #[test]
    fn each_bound_counts() {
        let usual = reserve(&options(&[]), 4);
        let names = ["max-message", "max-reply", "max-answer", "max-connections", "max-feeds", "keep", "keep-bytes"];
        for name in names.into_iter().chain(["max-memory", "max-consumers"]) {
            let most = match name {
                "keep" | "keep-bytes" => 1 << 40,
                _ => 1_u64 << 19,
            };
            let more = reserve(&options(&[&format!("--{name}"), &most.to_string()]), 4);
            assert!(more != usual, "--{name}");
        }
        assert!(reserve(&options(&["--tls-cert", "a", "--tls-key", "b"]), 4) > usual);
    }

    #[test]
    fn bounds_without_an_end_give_the_greatest_number() {
        let most = format!("{}", 1u64 << 62);
        assert!(reserve(&options(&["--keep", &most, "--keep-bytes", &most]), 4) > 1 << 62);
    }
}
