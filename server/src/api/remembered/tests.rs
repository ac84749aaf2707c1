//! Requests with keys, without a database: each is answered with what its body is.

use super::*;
use crate::gate::{Right, Who};
use crate::testing::server;
use std::future::ready;
use std::sync::Arc;

fn remembered(seconds: u64) -> Remembered {
    Remembered::new(Duration::from_secs(seconds), VecDeque::new())
}

fn asked(who: &str, key: &str, body: &str) -> Asked {
    let client = Client::new([127, 0, 0, 1].into(), &Who::of(who, &[Right::Write]));
    Asked::new(&client, who, key, &[b"POST", b"/transact", body.as_bytes()])
}

fn form(text: &str) -> Form {
    Form::Text(text.to_string().into())
}

fn text_of(answer: &Answer) -> String {
    match &answer.form {
        Form::Text(text) => String::from_utf8(text.to_vec()).expect("text"),
        other => panic!("{other:?}"),
    }
}

/// Remembers an answer.
fn keep(running: &Running<'_>, body: &str) -> Result<(), Refusal> {
    let answered = running.answered(running.key.expect("it has a key"), 5, form(body))?;
    running.keep(answered);
    Ok(())
}

/// What a request is answered, and whether it has run.
async fn ask(remembered: &Remembered, who: &str, key: &str, body: &str) -> (Result<String, &'static str>, bool) {
    match remembered.begin(&mut asked(who, key, body), Instant::now()).await {
        Ok(Begun::Told(answer)) => (Ok(text_of(&answer)), false),
        Ok(Begun::Runs(running)) => {
            (keep(&running, body).map(|()| body.to_string()).map_err(|refusal| refusal.error), true)
        }
        Err(refusal) => (Err(refusal.error), false),
    }
}

#[tokio::test]
async fn the_same_request_is_run_once() {
    let remembered = remembered(60);
    assert_eq!(ask(&remembered, "", "k", "1").await, (Ok("1".into()), true));
    assert_eq!(ask(&remembered, "", "k", "1").await, (Ok("1".into()), false));
    assert_eq!(ask(&remembered, "", "k", "2").await, (Err("idempotencykey"), false));
    assert_eq!(ask(&remembered, "", "l", "2").await, (Ok("2".into()), true));
    // Another token's key is another key.
    assert_eq!(ask(&remembered, "other", "k", "2").await, (Ok("2".into()), true));
    assert_eq!(remembered.room.taken(), 3 * (ENTRY_BYTES + 1));
}

#[tokio::test]
async fn a_key_is_of_a_token_and_stands_for_all_of_a_request() {
    let server = server(&[]);
    let asked = |name: &str, line: &str, headers: &[(&str, &str)], body: &str| {
        let request = Request::of(&server, &Who::of(name, &[Right::Write]), line, headers, body);
        let asked = server
            .remembered
            .asked(&request, body.as_bytes(), Permit::of(&request.client))
            .expect("a key")
            .key
            .expect("it is given");
        (asked.named, asked.asked)
    };
    let (key, line) = (("idempotency-key", "k"), "PUT /key/a?wait=1");
    let (named, same) = asked("one", line, &[key], "1");
    assert_eq!(asked("one", line, &[("idempotency-key", "\"k\"")], "1"), (named, same));
    for (name, key) in [("other", "k"), ("", "k"), ("one", "l")] {
        let (other, asked) = asked(name, line, &[("idempotency-key", key)], "1");
        assert!(other != named && asked == same, "{name} {key}");
    }
    for (line, header, body) in [
        ("POST /key/a?wait=1", None, "1"),
        ("PUT /key/b?wait=1", None, "1"),
        ("PUT /key/a?wait=2", None, "1"),
        (line, Some(("if-match", "\"1\"")), "1"),
        (line, Some(("if-none-match", "\"1\"")), "1"),
        (line, None, "2"),
        (line, None, ""),
    ] {
        let headers: Vec<_> = [key].into_iter().chain(header).collect();
        let (same_key, other) = asked("one", line, &headers, body);
        assert!(same_key == named && other != same, "{line} {header:?} {body}");
    }
}

#[tokio::test]
async fn what_failed_is_run_again() {
    let remembered = remembered(60);
    assert!(matches!(remembered.begin(&mut asked("", "k", "1"), Instant::now()).await, Ok(Begun::Runs(_))));
    assert_eq!(ask(&remembered, "", "k", "1").await, (Ok("1".into()), true));
}

#[tokio::test]
async fn it_is_forgotten_after_its_time() {
    let remembered = remembered(0);
    assert_eq!(ask(&remembered, "", "k", "1").await, (Ok("1".into()), true));
    assert_eq!(ask(&remembered, "", "k", "2").await, (Ok("2".into()), true));
    let mut table = remembered.table.lock();
    table.forget(remembered.now(), remembered.time);
    assert_eq!((table.numbers.len(), table.answered.len(), table.forgotten), (0, 0, 2));
    assert!(remembered.room.is_empty());
}

#[tokio::test]
async fn of_two_at_once_the_second_waits() {
    let remembered = Arc::new(remembered(60));
    let mut one = asked("", "k", "1");
    let Ok(Begun::Runs(first)) = remembered.begin(&mut one, Instant::now()).await else { panic!("it runs") };
    assert_eq!(ask(&remembered, "", "k", "1").await, (Err("running"), false));
    let second = {
        let (remembered, far) = (remembered.clone(), Instant::now() + Duration::from_secs(60));
        tokio::spawn(async move { remembered.begin(&mut asked("", "k", "1"), far).await.map(|begun| is_told(&begun)) })
    };
    tokio::task::yield_now().await;
    keep(&first, "1").expect("there is room");
    drop(first);
    assert_eq!(second.await.expect("it ends").map_err(|refusal| refusal.error), Ok(true));
}

fn is_told(begun: &Begun<'_>) -> bool {
    matches!(begun, Begun::Told(answer) if text_of(answer) == "1")
}

#[tokio::test]
async fn a_request_that_is_dropped_frees_its_key() {
    let remembered = remembered(60);
    let mut dropped = Box::pin(async {
        let mut one = asked("", "k", "1");
        let _running = remembered.begin(&mut one, Instant::now()).await;
        std::future::pending::<()>().await;
    });
    let waits = tokio::select! {
        biased;
        () = &mut dropped => false,
        () = ready(()) => true,
    };
    assert!(waits);
    assert_eq!(ask(&remembered, "", "k", "1").await, (Err("running"), false));
    drop(dropped);
    assert_eq!(ask(&remembered, "", "k", "1").await, (Ok("1".into()), true));
}

fn client(name: &str) -> Client {
    Client::new([127, 0, 0, 1].into(), &Who::of(name, &[Right::Write]))
}

/// A request of a client that runs.
fn running<'a>(remembered: &'a Remembered, name: &str, named: u128) -> Running<'a> {
    Running { remembered, key: Some(Key { named, asked: 0 }), client: client(name) }
}

#[test]
fn one_client_leaves_room_to_others_and_what_is_kept_stays_within_it() {
    let remembered = remembered(3600);
    let keeps = |name, named, text: &str| keep(&running(&remembered, name, named), text).map_err(|full| full.error);
    let finds = |named| remembered.find(Key { named, asked: 0 }, &client("a")).map_err(|full| full.error);
    // A text of a whole share has no room, whenever its request began.
    let long = "x".repeat(MOST_BYTES / 4 * 3);
    assert_eq!(keeps("a", 1, &long), Err("remembered"));
    assert_eq!(keeps("a", 1, &long[ENTRY_BYTES..]), Ok(()));
    assert_eq!([keeps("a", 2, "1"), keeps("b", 3, "1")], [Err("remembered"), Ok(())]);
    assert!(matches!(finds(1), Ok(Found::Answer(_))) && finds(2).err() == Some("remembered"));
    assert!(remembered.room.taken() <= MOST_BYTES);
}

#[test]
fn a_minute_of_honest_load_has_room() {
    let (remembered, text) = (remembered(3600), "x".repeat(200));
    for number in 0..60 * 1500 {
        keep(&running(&remembered, "payments", number), &text).expect("there is room");
    }
    assert_eq!(remembered.count(), 90_000);
}

#[test]
fn answers_of_a_crash_are_all_there_and_count() {
    let text = "x".repeat(4000);
    let one = |number| Answered { time: 1, named: number, asked: 0, timestamp: 1, form: form(&text) };
    let remembered = Remembered::new(Duration::from_secs(60), (0..20_000).map(one).collect());
    // They are more than there is room for: a server before had more.
    assert_eq!((remembered.count(), remembered.room.taken()), (20_000, 20_000 * (4000 + ENTRY_BYTES)));
    assert!(remembered.find(Key { named: 0, asked: 0 }, &client("a")).is_ok());
    assert!(remembered.find(Key { named: 20_000, asked: 0 }, &client("a")).is_err());
}

/// Answers of these keys and times.
fn answers(all: &[(&str, u64)]) -> VecDeque<Answered> {
    let one = |&(key, time): &(&str, u64)| {
        let Key { named, asked } = asked("", key, &time.to_string()).key.expect("it has a key");
        Answered { time, named, asked, timestamp: time, form: form(&time.to_string()) }
    };
    all.iter().map(one).collect()
}

#[tokio::test]
async fn a_restart_goes_on_where_the_time_stood() {
    let told = answers(&[("a", 1_000), ("b", 1_001), ("c", 30_000), ("b", 50_000), ("d", 61_000)]);
    let remembered = Remembered::new(Duration::from_secs(60), told);
    // Their time is over at 61,000, where the last one was told.
    assert_eq!(ask(&remembered, "", "a", "1000").await, (Ok("1000".into()), true));
    for (key, text) in [("c", "30000"), ("b", "50000"), ("d", "61000")] {
        assert_eq!(ask(&remembered, "", key, text).await, (Ok(text.into()), false));
    }
    // Of two answers to a key the later one counts.
    assert_eq!(ask(&remembered, "", "b", "1001").await, (Err("idempotencykey"), false));
    let (all, _) = remembered.some(0, 99);
    let times: Vec<u64> = all.iter().map(|one| one.time).collect();
    assert_eq!(times[..3], [30_000, 50_000, 61_000]);
    assert!(times.len() == 4 && times[3] >= 61_000, "{times:?}");
}

#[tokio::test]
async fn all_are_copied_some_at_a_time() {
    let remembered = remembered(60);
    for number in 0..2 * SOME + 7 {
        ask(&remembered, "", &format!("k{number}"), "1").await.0.expect("it is answered");
    }
    let below = remembered.count();
    assert_eq!(below, 2 * SOME as u64 + 7);
    ask(&remembered, "", "later", "1").await.0.expect("it is answered");
    assert_eq!([0, 1000, 2000].map(|from| remembered.some(from, below).0.len()), [SOME, SOME, 7]);
    assert_eq!([0, 1000, 2000].map(|from| remembered.some(from, below).1), [1000, 2000, below]);
    // What is forgotten meanwhile is left out.
    remembered.table.lock().forget(remembered.now() + 61_000, remembered.time);
    assert_eq!(remembered.some(1000, below), (Vec::new(), below));
    // Long ones come one at a time.
    for key in ["a", "b"] {
        ask(&remembered, "", key, &"x".repeat(SOME_BYTES)).await.0.expect("it is answered");
    }
    let (first, next) = remembered.some(below + 1, below + 3);
    assert_eq!((first.len(), next), (1, below + 2));
    assert_eq!(remembered.some(next, below + 3).0.len(), 1);
}

#[test]
fn digests_tell_parts_apart() {
    assert_ne!(digest(&[b"ab", b"c"]), digest(&[b"a", b"bc"]));
    assert_ne!(digest(&[b"a", b""]), digest(&[b"a"]));
    // That of no parts is that of no bytes.
    assert_eq!(digest(&[]), 0xe3b0_c442_98fc_1c14_9afb_f4c8_996f_b924);
}

#[test]
fn keys_of_a_header() {
    for (header, key) in [
        ("k", Some("k")),
        ("\"8e03978e-40d5-43dd-bc93-6894a57f9324\"", Some("8e03978e-40d5-43dd-bc93-6894a57f9324")),
        ("", None),
        ("\"\"", None),
        ("a b", None),
        ("\"a", None),
        ("a\\b", None),
        ("\u{fc}", None),
    ] {
        assert_eq!(key_in(header.as_bytes()).as_deref(), key, "{header}");
    }
    assert!(key_in("k".repeat(64).as_bytes()).is_some() && key_in("k".repeat(65).as_bytes()).is_none());
}
