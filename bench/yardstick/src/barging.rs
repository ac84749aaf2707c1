//! A lock of the yardstick's own, beside `std::sync::Mutex`: who asks looks some times, and else sleeps in a queue. Who is
//! done wakes the first there, and whoever runs may be served before it.
use std::collections::VecDeque;
use std::hint::spin_loop;
use std::sync::atomic::{AtomicUsize, Ordering::SeqCst};
use std::sync::Mutex;
use std::thread::{current, park, yield_now, Thread};

/// How often a thread looks before it sleeps. Behind the first ten it gives way in between.
const LOOKS: u32 = 14;

pub struct Barging<T> {
    /// Only tried: it is free, or some thread has it.
    value: Mutex<T>,
    /// How many threads are in the queue.
    waiting: AtomicUsize,
    queue: Mutex<VecDeque<Thread>>,
}

impl<T> Barging<T> {
    pub fn new(value: T) -> Barging<T> {
        Barging { value: Mutex::new(value), waiting: AtomicUsize::new(0), queue: Mutex::new(VecDeque::new()) }
    }

    pub fn with<R>(&self, mut work: impl FnMut(&mut T) -> R) -> R {
        let made = loop {
            if let Some(made) = self.look(&mut work) {
                break made;
            }
            self.enter();
            let made = self.try_with(&mut work);
            if made.is_none() {
                park();
            }
            self.leave();
            if let Some(made) = made {
                break made;
            }
        };
        self.wake();
        made
    }

    fn try_with<R>(&self, work: impl FnOnce(&mut T) -> R) -> Option<R> {
        Some(work(&mut *self.value.try_lock().ok()?))
    }

    fn look<R>(&self, mut work: impl FnMut(&mut T) -> R) -> Option<R> {
        for look in 0..LOOKS {
            let made = self.try_with(&mut work);
            if made.is_some() {
                return made;
            }
            if look < 10 {
                (0..1 << look.min(6)).for_each(|_| spin_loop());
            } else {
                yield_now();
            }
        }
        None
    }

    fn enter(&self) {
        let mut queue = self.queue.lock().expect("no thread panics");
        self.waiting.fetch_add(1, SeqCst);
        queue.push_back(current());
    }

    /// Takes this thread out of the queue, if it is there still.
    fn leave(&self) {
        let mut queue = self.queue.lock().expect("no thread panics");
        let me = current().id();
        if let Some(place) = queue.iter().position(|one| one.id() == me) {
            queue.remove(place);
            self.waiting.fetch_sub(1, SeqCst);
        }
    }

    fn wake(&self) {
        if self.waiting.load(SeqCst) == 0 {
            return;
        }
        if let Some(first) = self.queue.lock().expect("no thread panics").pop_front() {
            self.waiting.fetch_sub(1, SeqCst);
            first.unpark();
        }
    }
}
