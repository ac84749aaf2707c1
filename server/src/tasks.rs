//! The tasks that the server waits for at its end: connections, sessions, streams.

use std::future::Future;
use std::sync::atomic::{AtomicUsize, Ordering};
use std::sync::Arc;
use tokio::sync::Notify;

#[derive(Debug, Default)]
pub struct Tasks {
    shared: Arc<Shared>,
}

#[derive(Debug, Default)]
struct Shared {
    running: AtomicUsize,
    ended: Notify,
}

/// One task, as long as it runs.
struct Running(Arc<Shared>);

impl Drop for Running {
    fn drop(&mut self) {
        if self.0.running.fetch_sub(1, Ordering::AcqRel) == 1 {
            self.0.ended.notify_waiters();
        }
    }
}

impl Tasks {
    pub fn spawn(&self, task: impl Future<Output = ()> + Send + 'static) {
        self.shared.running.fetch_add(1, Ordering::AcqRel);
        let running = Running(self.shared.clone());
        tokio::spawn(async move {
            task.await;
            drop(running);
        });
    }

    /// Waits until none runs.
    pub async fn all_ended(&self) {
        loop {
            let ended = self.shared.ended.notified();
            tokio::pin!(ended);
            // From here on no end is missed.
            ended.as_mut().enable();
            if self.shared.running.load(Ordering::Acquire) == 0 {
                return;
            }
            ended.await;
        }
    }
}

#[cfg(test)]
mod tests {
    use super::*;
    use std::time::Duration;

    #[tokio::test]
    async fn the_last_task_is_waited_for() {
        let (tasks, done) = (Tasks::default(), Arc::new(AtomicUsize::new(0)));
        tasks.all_ended().await;
        for wait in [1, 20, 5] {
            let done = done.clone();
            tasks.spawn(async move {
                tokio::time::sleep(Duration::from_millis(wait)).await;
                done.fetch_add(1, Ordering::SeqCst);
            });
        }
        tasks.all_ended().await;
        assert_eq!(done.load(Ordering::SeqCst), 3);
    }
}
