use super::*;
use crate::testing::{processor_time, Dice};
use std::io::ErrorKind;
use tokio::io::{duplex, AsyncReadExt, AsyncWriteExt, DuplexStream};
use tokio::time::{sleep, timeout};

const PATIENCE: Duration = Duration::from_millis(100);

fn peer() -> SocketAddr {
    SocketAddr::from(([192, 0, 2, 7], 4711))
}

/// A request that passes the gate.
fn asks(connection: &Arc<Connection>) -> Busy {
    connection.asks(&crate::testing::LOOPBACK).expect("its client has room")
}

fn come(all: &Arc<Connections>) -> Arc<Connection> {
    all.come(peer()).expect("there is room")
}

/// A connection whose stream holds so many bytes for its reader.
fn piped(room: usize) -> (Arc<Connections>, Arc<Connection>, Watched<DuplexStream>, DuplexStream) {
    let all = Connections::new(8, PATIENCE);
    let connection = come(&all);
    let (own, other) = duplex(room);
    let watched = connection.watch(own);
    (all, connection, watched, other)
}

#[test]
fn the_one_that_is_silent_for_longest_makes_room() {
    let all = Connections::new(3, PATIENCE);
    let (first, second, third) = (come(&all), come(&all), come(&all));
    let busy = asks(&first);
    let fourth = come(&all);
    assert_eq!([&first, &second, &third, &fourth].map(|one| one.is_cut()), [false, true, false, false]);
    // The first is silent again, but not for as long as the third.
    drop(busy);
    let _fifth = come(&all);
    assert_eq!([&first, &third, &fourth].map(|one| one.is_cut()), [false, true, false]);
    let _sixth = come(&all);
    assert!(!first.is_cut() && fourth.is_cut());
    assert_eq!(all.open(), 3);
}

#[test]
fn busy_ones_keep_their_places() {
    let all = Connections::new(2, PATIENCE);
    let (first, second) = (come(&all), come(&all));
    let busy = (asks(&first), asks(&second), asks(&second));
    assert!(all.come(peer()).is_none());
    // One of its two requests is answered.
    drop(busy.1);
    assert!(all.come(peer()).is_none());
    drop(busy.2);
    assert!(all.come(peer()).is_some() && second.is_cut() && !first.is_cut());
}

#[test]
fn who_waits_for_its_client_makes_room_and_has_a_limit_of_its_own() {
    let all = Connections::new(2, PATIENCE);
    let (first, second) = (come(&all), come(&all));
    let busy = (asks(&first), asks(&second));
    // The body of the first comes slowly.
    let waits = first.waits();
    all.tidy_at(Instant::now() + 3 * REST);
    assert!(!first.is_cut());
    drop(waits);
    assert!(all.come(peer()).is_none());
    // The answer of the second is there.
    busy.1.answers();
    all.tidy_at(Instant::now() + 3 * REST);
    assert!(!second.is_cut());
    let third = come(&all);
    assert!(second.is_cut() && !first.is_cut());
    drop(busy.1);
    let _busy = asks(&third);
    // A feed is streamed to the first.
    first.exempt();
    busy.0.answers();
    assert!(all.come(peer()).is_none() && all.open() == 2);
}

#[test]
fn whoever_opens_many_makes_room_for_others() {
    let all = Connections::new(3, PATIENCE);
    let other = all.come(([192, 0, 2, 8], 1).into()).expect("there is room");
    let (first, second) = (come(&all), come(&all));
    let third = come(&all);
    assert_eq!([&other, &first, &second, &third].map(|one| one.is_cut()), [false, true, false, false]);
    // Nor while its own are busy.
    let _busy = (asks(&second), asks(&third));
    assert!(all.come(peer()).is_none() && !other.is_cut());
}

#[test]
fn a_place_is_free_once_its_connection_is_gone() {
    let all = Connections::new(2, PATIENCE);
    let (first, second) = (come(&all), come(&all));
    let _busy = (asks(&first), asks(&second));
    assert!(all.come(peer()).is_none());
    second.cut();
    assert_eq!(all.open(), 1);
    let third = come(&all);
    let busy = asks(&third);
    drop(third);
    assert_eq!(all.open(), 2);
    drop(busy);
    assert_eq!(all.open(), 1);
    drop(second);
    assert_eq!(all.open(), 1);
}

#[test]
fn silence_ends_after_ten_seconds_and_after_sixty() {
    let all = Connections::new(8, PATIENCE);
    let (new, rests, busy) = (come(&all), come(&all), come(&all));
    drop(asks(&rests));
    let _asks = asks(&busy);
    let cut_at = |seconds| {
        all.tidy_at(Instant::now() + Duration::from_secs_f64(seconds));
        [&new, &rests, &busy].map(|one| one.is_cut())
    };
    assert_eq!(cut_at(9.0), [false, false, false]);
    assert_eq!(cut_at(10.1), [true, false, false]);
    assert_eq!(cut_at(59.0), [true, false, false]);
    assert_eq!(cut_at(60.1), [true, true, false]);
    assert_eq!(cut_at(1e6), [true, true, false]);
    assert_eq!(all.open(), 1);
}

#[test]
fn twenty_thousand_come_and_go_in_little_time() {
    let all = Connections::new(10_000, PATIENCE);
    let start = processor_time();
    let kept: Vec<_> = (0..20_000).map(|_| come(&all)).collect();
    assert_eq!(kept.iter().filter(|one| one.is_cut()).count(), 10_000);
    kept.iter().for_each(|one| drop(asks(one)));
    assert_eq!(all.open(), 10_000);
    drop(kept);
    assert_eq!(all.open(), 0);
    let table = all.table.lock();
    assert!(table.silent.is_empty() && table.until.is_empty());
    assert!(processor_time() - start < 3_000_000_000);
}

#[tokio::test]
async fn whoever_waits_for_a_cut_is_told() {
    let all = Connections::new(8, PATIENCE);
    let connection = come(&all);
    let waits = [tokio::spawn(waits_for(connection.clone())), tokio::spawn(waits_for(connection.clone()))];
    assert!(timeout(PATIENCE, connection.cut_off()).await.is_err());
    connection.cut();
    for one in waits {
        timeout(Duration::from_secs(5), one).await.unwrap().unwrap();
    }
    connection.cut_off().await;
}

async fn waits_for(connection: Arc<Connection>) {
    connection.cut_off().await;
}

#[tokio::test]
async fn a_writer_that_gets_nothing_away_is_cut() {
    let (all, connection, mut watched, _other) = piped(64);
    let _busy = asks(&connection);
    let start = Instant::now();
    let error = watched.write_all(&[0; 1000]).await.unwrap_err();
    assert_eq!(error.kind(), ErrorKind::TimedOut);
    assert!(start.elapsed() >= PATIENCE && connection.is_cut());
    assert_eq!(all.open(), 0);
    assert_eq!(watched.write(b"x").await.unwrap_err().kind(), ErrorKind::ConnectionAborted);
    assert!(watched.read(&mut [0; 8]).await.is_err());
}

#[tokio::test]
async fn a_reader_that_takes_little_at_a_time_is_waited_for() {
    let (_all, connection, mut watched, mut other) = piped(64);
    let writing = tokio::spawn(async move { watched.write_all(&[7; 640]).await });
    let mut taken = 0;
    for _ in 0..10 {
        sleep(PATIENCE / 2).await;
        taken += other.read(&mut [0; 64]).await.unwrap();
    }
    while taken < 640 {
        taken += other.read(&mut [0; 64]).await.unwrap();
    }
    writing.await.unwrap().unwrap();
    assert!(!connection.is_cut());
}

#[tokio::test]
async fn a_stream_waits_for_its_reader_until_it_ends() {
    let (_all, connection, mut watched, mut other) = piped(64);
    let busy = asks(&connection);
    connection.exempt();
    let writing = tokio::spawn(async move { watched.write_all(&[7; 96]).await.map(|()| watched) });
    sleep(5 * PATIENCE).await;
    assert!(!writing.is_finished());
    other.read_exact(&mut [0; 96]).await.unwrap();
    let mut watched = writing.await.unwrap().unwrap();
    // Once it is answered it is as any other.
    drop(busy);
    let _busy = asks(&connection);
    assert!(watched.write_all(&[0; 1000]).await.is_err() && connection.is_cut());
}

#[tokio::test]
async fn an_exemption_that_ends_while_a_write_waits_ends_the_wait_too() {
    let (_all, connection, mut watched, _other) = piped(64);
    let busy = asks(&connection);
    connection.exempt();
    let writing = tokio::spawn(async move { watched.write_all(&[7; 96]).await });
    sleep(3 * PATIENCE).await;
    assert!(!writing.is_finished());
    drop(busy);
    assert!(timeout(5 * PATIENCE, writing).await.unwrap().unwrap().is_err());
}

#[tokio::test]
async fn bytes_behind_a_stream_cut_it() {
    let (_all, connection, mut watched, mut other) = piped(64);
    let busy = asks(&connection);
    other.write_all(b"head").await.unwrap();
    assert_eq!(watched.read(&mut [0; 8]).await.unwrap(), 4);
    connection.exempt();
    other.write_all(b"more").await.unwrap();
    let error = watched.read(&mut [0; 8]).await.unwrap_err();
    assert_eq!(error.kind(), ErrorKind::ConnectionAborted);
    assert!(connection.is_cut());
    drop(busy);
}

#[tokio::test]
async fn the_end_of_what_is_sent_cuts_nothing() {
    let (_all, connection, mut watched, mut other) = piped(64);
    connection.exempt();
    other.shutdown().await.unwrap();
    assert_eq!(watched.read(&mut [0; 8]).await.unwrap(), 0);
    assert!(!connection.is_cut());
}

#[tokio::test]
async fn a_read_is_bounded_and_loses_nothing() {
    let (_all, _connection, mut watched, mut other) = piped(1 << 20);
    let sent: Vec<u8> = (0..100_000_u32).map(|number| number as u8).collect();
    other.write_all(&sent).await.unwrap();
    drop(other);
    let mut found = Vec::new();
    let mut piece = vec![0; 1 << 17];
    loop {
        let count = watched.read(&mut piece).await.unwrap();
        assert!(count <= 1 << 14);
        if count == 0 {
            break;
        }
        found.extend_from_slice(&piece[..count]);
    }
    assert_eq!(found, sent);
}

/// What a connection is to the model: who is cut is the one that has been silent for longest, of those that have asked
/// nothing yet, where there are any.
struct Modelled {
    connection: Arc<Connection>,
    busy: Vec<Busy>,
    has_asked: bool,
    /// When it fell silent, as a count of what was done.
    silent: usize,
}

#[test]
fn any_order_of_coming_asking_and_going_is_as_a_plain_list_has_it() {
    let mut dice = Dice::new(14);
    let all = Connections::new(5, PATIENCE);
    let (mut model, mut count): (Vec<Modelled>, usize) = (Vec::new(), 0);
    dice.each(|dice| {
        count += 1;
        let at = dice.below(model.len() as u64 + 1) as usize;
        match (dice.below(5), model.get_mut(at)) {
            (0 | 1, _) => model_comes(&all, &mut model, count),
            (2, Some(_)) => model_asks(&mut model, at),
            (3, Some(one)) => one.silent = if one.busy.pop().is_some() { count } else { one.silent },
            (4, Some(_)) => drop(model.swap_remove(at)),
            _ => {}
        }
        assert_eq!(all.open(), model.len());
        assert!(model.iter().all(|one| !one.connection.is_cut()));
    });
}

/// One client may have four of five.
fn model_asks(model: &mut [Modelled], at: usize) {
    let others = model.iter().filter(|one| !one.busy.is_empty()).count();
    let asked = model[at].connection.asks(&crate::testing::LOOPBACK);
    let has_room = others < 4 || !model[at].busy.is_empty();
    assert_eq!(asked.as_ref().err().map(|refusal| refusal.error), (!has_room).then_some("connections"));
    model[at].has_asked |= has_room;
    model[at].busy.extend(asked);
}

fn model_comes(all: &Arc<Connections>, model: &mut Vec<Modelled>, count: usize) {
    let came = all.come(peer());
    if model.len() == 5 {
        let silent = (0..5).filter(|at| model[*at].busy.is_empty());
        let Some(oldest) = silent.min_by_key(|at| (model[*at].has_asked, model[*at].silent)) else {
            assert!(came.is_none());
            return;
        };
        assert!(model.swap_remove(oldest).connection.is_cut());
    }
    let connection = came.expect("there is room");
    model.push(Modelled { connection, busy: Vec::new(), has_asked: false, silent: count });
}
