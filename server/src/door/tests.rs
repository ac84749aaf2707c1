use super::*;
use crate::gate::{Right, Who};
use crate::testing::LOOPBACK;
use crate::testing::{ask, server, status, waits};
use std::future::Future;
use std::sync::atomic::{AtomicBool, Ordering::SeqCst};
use std::thread::{self, sleep, yield_now};

const LONG: Duration = Duration::from_millis(45);

/// Waits as a thread, however busy the machine is.
fn wait_until(is_so: impl Fn() -> bool) {
    while !is_so() {
        yield_now();
    }
}

fn run<T>(work: impl Future<Output = T>) -> T {
    tokio::runtime::Builder::new_current_thread().enable_all().build().expect("a runtime").block_on(work)
}

/// Keeps the lock for long, until another one waits for it. Gives when it had it.
fn while_one_waits(door: &Door) -> Instant {
    sleep(LONG);
    wait_until(|| door.waiting.load(Relaxed) > 0);
    Instant::now()
}

#[test]
fn where_much_long_work_waits_one_of_it_is_in_the_way_of_short_work() {
    let server = server(&[]);
    let (door, has_begun, all_wait) = (&server.door, AtomicBool::new(false), AtomicBool::new(false));
    let others = || async {
        wait_until(|| has_begun.load(SeqCst));
        let long = || door.turn_of(Length::Long, &LOOPBACK, |_, _| {});
        // Each has asked for the lane when the last one is asked.
        let last = async { all_wait.store(true, SeqCst) };
        tokio::join!(long(), long(), long(), long(), long(), long(), long(), last);
    };
    let waiting = thread::scope(|scope| {
        let first = scope.spawn(|| {
            let first = door.turn_of(Length::Long, &LOOPBACK, |_, _| {
                has_begun.store(true, SeqCst);
                wait_until(|| all_wait.load(SeqCst) && door.waiting.load(Relaxed) > 0);
                door.waiting.load(Relaxed)
            });
            run(first).0
        });
        scope.spawn(|| run(others()));
        wait_until(|| all_wait.load(SeqCst));
        door.run(|_| {});
        first.join().expect("it doesn't panic")
    });
    // No one but the short work waited for the lock.
    assert_eq!((waiting, door.waiting.load(Relaxed), door.lane.available_permits()), (1, 0, 1));
}

#[test]
fn the_lane_rests_behind_work_that_was_too_long_while_others_waited() {
    let server = server(&[]);
    let door = &server.door;
    let next = || run(door.turn_of(Length::Long, &LOOPBACK, |_, _| Instant::now())).0;
    let rests = || *door.rests.lock();
    let (before, (_, was)) = (rests(), run(door.turn_of(Length::Long, &LOOPBACK, |_, _| sleep(LONG))));
    assert_eq!((rests(), was), (before, Length::Long));
    // Also where it didn't have the lane.
    for length in [Length::Long, Length::Short] {
        thread::scope(|scope| {
            let (end, was) = run(door.turn_of(length, &LOOPBACK, |_, _| {
                scope.spawn(|| door.run(|_| {}));
                while_one_waits(door)
            }));
            assert!(was == Length::Long && next() >= end + (LONG - TURN) * REST);
        });
    }
}

#[test]
fn the_lane_rests_between_turns_that_keep_it_however_short_they_are() {
    let server = server(&[]);
    let door = &server.door;
    let mut ends = Vec::new();
    thread::scope(|scope| {
        run(door.turns_in_lane(Permit::of(&LOOPBACK), |_, _| {
            let begun = Instant::now();
            if let Some(&end) = ends.last() {
                assert!(begun >= end + TURN / 2 * REST);
                return Some(());
            }
            scope.spawn(|| door.run(|_| {}));
            wait_until(|| door.waiting.load(Relaxed) > 0);
            sleep((TURN / 2).saturating_sub(begun.elapsed()));
            ends.push(Instant::now());
            None
        }));
    });
}

#[test]
fn work_in_the_lane_holds_up_no_other_task_of_its_thread() {
    let (server, goes_on) = (server(&[]), Arc::new(AtomicBool::new(false)));
    let one = tokio::runtime::Builder::new_multi_thread().worker_threads(1).enable_all().build();
    let (one, other) = (one.expect("a runtime"), goes_on.clone());
    let long = one.spawn(async move {
        let wait_for_another = |_: &mut Core, _| {
            tokio::spawn(async move { other.store(true, SeqCst) });
            (0..6000).any(|_| {
                goes_on.load(SeqCst) || {
                    sleep(Duration::from_millis(10));
                    false
                }
            })
        };
        server.door.turn_of(Length::Long, &LOOPBACK, wait_for_another).await.0
    });
    assert!(one.block_on(long).expect("it doesn't panic"));
}

#[tokio::test(start_paused = true)]
async fn the_lane_goes_to_who_came_first_and_is_given_back_by_who_goes_away() {
    let server = server(&[]);
    let (door, order) = (&server.door, Mutex::new(Vec::new()));
    let long = |name: u8| {
        let order = &order;
        async move { door.turn_of(Length::Long, &LOOPBACK, |_, _| order.lock().push(name)).await }
    };
    let (first, mut goes) = (door.lane(Permit::of(&LOOPBACK)).await, Box::pin(door.lane(Permit::of(&LOOPBACK))));
    assert!(waits(goes.as_mut()).await);
    let behind = async { tokio::join!(long(1), long(2), long(3)) };
    let given_back = async {
        drop(goes);
        drop(first);
    };
    let all = async { tokio::join!(behind, given_back) };
    tokio::time::timeout(Duration::from_secs(60), all).await.expect("who went away isn't waited for");
    assert_eq!(*order.lock(), [1, 2, 3]);
}

#[tokio::test(start_paused = true)]
async fn who_has_much_long_work_is_waited_for_once() {
    let server = server(&[]);
    let (door, order) = (&server.door, Mutex::new(Vec::new()));
    let [taker, other] = [1, 2].map(|last| Client::new([192, 0, 2, last].into(), &Who::anyone()));
    let long = |client, name| {
        let order = &order;
        async move { door.turn_of(Length::Long, client, |_, _| order.lock().push(name)).await }
    };
    let first = door.lane(Permit::of(&taker)).await;
    let takers = async { tokio::join!(long(&taker, 1), long(&taker, 2), long(&taker, 3)) };
    let given_back = async { drop(first) };
    tokio::join!(takers, long(&other, 9), given_back);
    assert_eq!(*order.lock(), [9, 1, 2, 3]);
    // Who has none takes no memory.
    drop(door.lane(Permit::of(&other)).await);
    assert_eq!(door.for_lane.of.lock().len(), 1);
}

#[tokio::test]
async fn between_two_turns_in_the_lane_short_work_is_done_and_long_work_waits() {
    let server = server(&[]);
    let (door, order, mut turns) = (&server.door, Mutex::new(Vec::new()), 0);
    let first = door.turns_in_lane(Permit::of(&LOOPBACK), |_, _| {
        order.lock().push("turn");
        turns += 1;
        (turns == 3).then_some(turns)
    });
    let long = door.turn_of(Length::Long, &LOOPBACK, |_, _| order.lock().push("long"));
    let short = async { door.run(|_| order.lock().push("short")) };
    assert_eq!(tokio::join!(first, long, short).0, 3);
    assert_eq!(*order.lock(), ["turn", "short", "turn", "turn", "long"]);
    assert_eq!(door.lane.available_permits(), 1);
}

fn client(name: &str) -> Client {
    Client::new([192, 0, 2, 1].into(), &Who::of(name, &[Right::Read]))
}

/// All permits of a client.
async fn all_permits(door: &Door, client: &Client) -> Vec<Permit> {
    let mut taken = Vec::new();
    for _ in 0..door.permits.most {
        taken.push(door.permit(client, 0).await);
    }
    taken
}

#[tokio::test]
async fn a_client_has_few_turns_at_once_and_others_do_not_wait_for_them() {
    let (server, taker, other) = (server(&[]), client("taker"), client("other"));
    let door = &server.door;
    let mut taken = all_permits(door, &taker).await;
    let mut waiting = Box::pin(door.turn_of(Length::Short, &taker, |_, _| 7));
    assert!(waits(waiting.as_mut()).await);
    assert_eq!(door.turn_of(Length::Short, &other, |_, _| 8).await.0, 8);
    // Its long bodies wait for each other, and for the lane, and not for these.
    let long = door.permit(&taker, LONG_BODY + 1).await;
    let mut longer = Box::pin(door.permit(&taker, LONG_BODY + 1));
    assert!(waits(longer.as_mut()).await);
    assert_eq!(door.turns_in_lane(long, |_, _| Some(9)).await, 9);
    longer.await.leave();
    taken.pop();
    assert_eq!(waiting.await.0, 7);
    drop(taken);
    drop(door.permit(&other, 0).await);
    assert_eq!(door.permits.of.lock().len(), 1);
}

#[tokio::test]
async fn a_plan_that_waits_is_not_read() {
    let who = Who::of("taker", &[Right::Read]);
    let server = server(&[]);
    let taken = all_permits(&server.door, &client("taker")).await;
    let mut faulty = Box::pin(ask(&server, &who, "POST /transact", &[], "no plan"));
    assert!(waits(faulty.as_mut()).await);
    drop(taken);
    assert_eq!(status(faulty.await), (400, "json"));
}

#[tokio::test]
async fn on_one_thread_another_waits_for_few_long_turns() {
    let (server, order) = (server(&[]), Arc::new(Mutex::new(Vec::new())));
    let turn = |client: Client, name: usize| {
        let (server, order) = (server.clone(), order.clone());
        tokio::spawn(async move {
            let work = |_: &mut Core, _| {
                order.lock().push(name);
                sleep(2 * LONG_TURN);
            };
            server.door.turn_of(Length::Short, &client, work).await;
        })
    };
    let takers: Vec<_> = (0..20).map(|name| turn(client("taker"), name)).collect();
    turn(client("other"), 100).await.expect("it doesn't panic");
    assert_eq!(order.lock().iter().position(|&name| name == 100), Some(server.door.permits.most));
    for one in takers {
        one.await.expect("it doesn't panic");
    }
    let all: Vec<usize> = order.lock().iter().copied().filter(|&name| name != 100).collect();
    assert!(all.iter().copied().eq(0..20), "in the order in which they came: {all:?}");
}

impl Door {
    /// Keeps the lane, as long work does.
    pub async fn keep_lane(&self) -> InLane<'_> {
        self.in_lane(Permit::of(&crate::testing::LOOPBACK)).await
    }
}
