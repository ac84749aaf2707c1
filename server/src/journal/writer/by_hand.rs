//! A writer without a thread: a test takes each batch and writes it when it likes. So all is done in one order, and a
//! crash may come between any two steps.
//!
//! ```text
//! hold()                     from here on this thread's writers are moved by hand
//! take()                     the batch that gathers is on its way
//! finish()                   it is written, and durable, or the disk has failed
//! ```

use super::{Pieces, Thread, Work};
use crate::journal::rules::{holds, Rule};
use crate::journal::Failure;
use std::cell::{Cell, RefCell};
use std::collections::VecDeque;

struct Held {
    thread: Thread,
    works: VecDeque<Work>,
    is_over: bool,
}

thread_local! {
    static IS_HELD: Cell<bool> = const { Cell::new(false) };
    static HELD: RefCell<Option<Held>> = const { RefCell::new(None) };
}

pub fn hold() {
    IS_HELD.set(true);
}

pub fn is_held() -> bool {
    IS_HELD.get()
}

/// The writer that was started last is moved from here on.
pub(super) fn start(thread: Thread) {
    HELD.set(Some(Held { thread, works: VecDeque::new(), is_over: false }));
}

fn held<R>(work: impl FnOnce(&mut Held) -> R) -> R {
    HELD.with_borrow_mut(|held| work(held.as_mut().expect("a writer was started")))
}

/// Takes the batch that gathers, where there is something to write and none is on its way: whether it did.
pub fn take() -> bool {
    held(|held| {
        let most = if holds(Rule::OneBatchAtATime) { 1 } else { 2 };
        let has_work = held.thread.shared.queue.lock().has_work();
        if held.is_over || !has_work || held.works.len() == most {
            return false;
        }
        let work = held.thread.take(&mut Pieces::default()).expect("there is something to write");
        held.is_over = work.is_last;
        held.works.push_back(work);
        true
    })
}

/// Whether a batch is on its way.
pub fn is_writing() -> bool {
    held(|held| !held.works.is_empty())
}

/// Writes the batch that is on its way. Of several the last one comes first.
pub fn finish() -> Result<(), Failure> {
    held(|held| {
        let Some(mut work) = held.works.pop_back() else { return Ok(()) };
        let written = held.thread.write(&mut work);
        if written.is_ok() || !holds(Rule::FailedWritesEnd) {
            held.thread.is_durable(&work);
            if work.is_last {
                held.thread.end(work.number);
            }
            return Ok(());
        }
        written
    })
}
