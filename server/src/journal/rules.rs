//! The journal's rules by name, so that a test can leave out one of them and see that this is noticed.
//!
//! In the server all of them hold: `holds` is the constant `true` there, and nothing of the rest is compiled into it.
//!
//! ```text
//! if holds(Rule::ReadsWait) { .. }        the server: always
//!                                         a test's thread that has left it out: never
//! ```

#[derive(Clone, Copy, Debug, PartialEq, Eq)]
pub enum Rule {
    // What waits until it is told.
    RequestsWait,
    CommitsWait,
    ReadsWait,
    ScansWait,
    MessagesWait,
    TooLateWaits,
    StatsWait,
    BelowHorizonWaits,
    CollectionsWait,
    AnswersNeedTheLease,
    // The mark.
    CallsWaitForTheMark,
    TheMarkIsWritten,
    ClosedComesToTheMark,
    NothingIsCalledBehindTheEnd,
    // What is recorded.
    NamesAreKept,
    GenerationsAreKept,
    CollectionsAreKept,
    ClosingsAreKeptAsAnswered,
    AnswersAreKept,
    #[cfg(test)]
    AnswersStandBesideTheirCommits,
    IdentityStays,
    // How it is written.
    #[cfg(test)]
    OneBatchAtATime,
    #[cfg(test)]
    TornBatchesGo,
    #[cfg(test)]
    FailedWritesEnd,
    // Checkpoints.
    TheSwitchComesFirst,
    TheCopyReachesWhatBegan,
    TheCopyWaitsForClosed,
    AnswersAreCarried,
}

#[cfg(not(test))]
pub const fn holds(_: Rule) -> bool {
    true
}

#[cfg(test)]
pub use left_out::{holds, leave_out};

#[cfg(test)]
mod left_out {
    use super::Rule;
    use std::cell::Cell;

    thread_local! {
        static LEFT_OUT: Cell<Option<Rule>> = const { Cell::new(None) };
    }

    pub fn holds(rule: Rule) -> bool {
        LEFT_OUT.get() != Some(rule)
    }

    /// From here on this thread has no such rule.
    pub fn leave_out(rule: Option<Rule>) {
        LEFT_OUT.set(rule);
    }
}
