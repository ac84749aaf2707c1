//! Why a plan came to nothing, and how that is told.

use crate::api::pages::Unread;
use crate::cuts;
use crate::journal::Ticket;
use crate::refusal::Refusal;
use ripsawbean::MOST_ROWS;
use tokio::sync::watch;

/// Why a plan came to nothing.
#[derive(Debug)]
pub enum Stop {
    /// By the undecided transaction of this timestamp. The receiver changes once it is decided.
    Blocked(u64, watch::Receiver<()>),
    NotClosed(u64),
    BelowHorizon(u64),
    NoMemory,
    Full,
    /// Memory is full, and so is what transactions or deletes may take beside it.
    Overfull,
    /// Unread answers leave no room for a long one.
    Crowded,
    Draining,
    /// There is no room to remember its answer.
    NotRemembered(Refusal),
    TooMuch,
    ReplyTooLong,
    /// Its timestamp is above the mark that is durable: it is run once this is.
    Until(Ticket),
    /// It is longer than it may be: nothing was changed, and it is run anew in turns.
    Long,
    /// Between two of its turns another one got in its way: nothing was changed, and it is run anew at once.
    Overtaken,
    /// The database gave an answer that it can't give.
    Unexpected,
    /// The commit was called, and its answer is lost.
    Lost,
}

impl Stop {
    /// The refusal, of which nothing was changed but where it says so.
    pub fn refusal(self) -> Refusal {
        match self {
            Stop::Blocked(by, _) => {
                let why = "a transaction in the way is undecided: nothing was changed";
                Refusal::busy("blocked", why).with_number("by", by)
            }
            Stop::NotClosed(closed) => {
                Refusal::new(409, "notclosed", "this timestamp is above closed").with_number("closed", closed)
            }
            Stop::BelowHorizon(horizon) => {
                let why = "versions at this timestamp may be gone";
                Refusal::new(410, "belowhorizon", why).with_number("horizon", horizon)
            }
            Stop::NoMemory => Refusal::busy("nomemory", "there is no memory for it: nothing was changed"),
            Stop::Full => Refusal::busy("full", "the server's memory is full: keys can be deleted, and not put"),
            Stop::Overfull => {
                let why = "the server's memory is full, and so is what transactions and deletes may take beside it";
                Refusal::busy("full", why)
            }
            Stop::Crowded => Refusal::crowded(),
            Stop::Draining => Refusal::busy("draining", "the server is about to end"),
            Stop::NotRemembered(refusal) => refusal,
            Stop::TooMuch => Refusal::new(
                422,
                "toomuch",
                format!(
                    "a transaction reads {MOST_ROWS} rows at most, and passes over some {} deleted keys: nothing was \
                     changed",
                    cuts::MOST as u64 * cuts::SHARE
                ),
            ),
            Stop::ReplyTooLong => {
                let why = "the answer would be longer than --max-reply: nothing was changed";
                Refusal::new(422, "replytoolong", why)
            }
            // Who runs it runs one anew that has to wait, is long, or was overtaken.
            Stop::Until(_) | Stop::Long | Stop::Overtaken | Stop::Unexpected => {
                Refusal::new(500, "unexpected", "the server's log says more: nothing was changed")
            }
            Stop::Lost => Refusal::new(500, "unwritten", "it may have committed: there is no memory for its answer"),
        }
    }
}

impl From<Unread> for Stop {
    fn from(unread: Unread) -> Stop {
        match unread {
            Unread::BelowHorizon(horizon) => Stop::BelowHorizon(horizon),
            Unread::NoMemory => Stop::NoMemory,
        }
    }
}
