use super::end::POLICY;
use super::*;
use crate::seats::EndedBy;
use crate::testing::{say, server};
use tokio::io::{duplex, DuplexStream};

/// A session's socket, and its client's end.
fn socket(words: &[&str]) -> (Socket, DuplexStream) {
    let (ours, client) = duplex(1 << 20);
    let server = server(words);
    let peer = ([127, 0, 0, 1], 1).into();
    let connection = server.connections.come(peer).expect("a place");
    let session = server.door.run(crate::testing::session);
    (Socket::new(Box::new(ours), connection, Seated { server, session }), client)
}

/// A text of these lines in a frame whose mask is 0.
fn frame(text: &str) -> Vec<u8> {
    let length = u16::try_from(text.len()).expect("it is short").to_be_bytes();
    let head = match text.len() {
        ..126 => vec![0x81, 0x80 | length[1]],
        _ => vec![0x81, 0xfe, length[0], length[1]],
    };
    [&head, &[0; 4][..], text.as_bytes()].concat()
}

#[tokio::test]
async fn messages_of_no_bytes_wait_in_the_connection_too() {
    let (mut socket, mut client) = socket(&[]);
    socket.wait(b"stats\n".to_vec());
    client.write_all(&[0x81, 0x80, 0, 0, 0, 0].repeat(100_000)).await.expect("there is room");
    for _ in 0..1000 {
        socket.look().await.expect("the client is there");
    }
    // Those of one read, behind which nothing more is read.
    assert!(socket.waiting.len() <= 1 + READ / 6, "{}", socket.waiting.len());
}

#[tokio::test]
async fn a_long_message_waits_in_the_connection_while_another_is_answered() {
    let (mut socket, mut client) = socket(&[]);
    socket.wait(b"stats\n".to_vec());
    let head = [&[0x81, 0xff][..], &(1_u64 << 20).to_be_bytes(), &[0; 4]].concat();
    client.write_all(&head).await.expect("there is room");
    client.write_all(&[b'x'; 1 << 19]).await.expect("there is room");
    for _ in 0..1000 {
        socket.look().await.expect("the client is there");
    }
    assert!(socket.decoder.begun() < AHEAD + READ, "{}", socket.decoder.begun());
}

#[tokio::test]
async fn a_session_whose_client_sends_on_and_on_can_be_ended() {
    let (socket, client) = socket(&[]);
    let (mut answers, mut client) = tokio::io::split(client);
    let flood = async {
        let lines = frame(&"stats\n".repeat(1000));
        while client.write_all(&lines).await.is_ok() {}
    };
    let mut told = Vec::new();
    tokio::join!(flood, answers.read_to_end(&mut told), ended_soon(socket)).1.expect("it is read");
    assert!(told.ends_with(&closed(POLICY, "operator")), "{:?}", &told[told.len() - 60..]);
}

/// A close frame.
fn closed(code: u16, why: &str) -> Vec<u8> {
    let length = 2 + u8::try_from(why.len()).expect("it is short");
    [&[0x88, length], &code.to_be_bytes()[..], why.as_bytes()].concat()
}

#[tokio::test(start_paused = true)]
async fn a_client_that_answers_no_ping_is_told_so() {
    let (socket, mut client) = socket(&["--heartbeat", "4"]);
    let (server, began) = (socket.seated.server.clone(), tokio::time::Instant::now());
    let running = tokio::spawn(socket.run());
    let mut told = Vec::new();
    client.read_to_end(&mut told).await.expect("it is read");
    assert_eq!(told, [&[0x89, 0][..], &closed(POLICY, "heartbeat")].concat());
    let took = began.elapsed().as_secs_f64();
    assert!((6.0..6.1).contains(&took), "{took}");
    drop(client);
    running.await.expect("it doesn't panic");
    assert_eq!(server.door.run(|core| core.seats.count()), 0);
}

#[tokio::test(start_paused = true)]
async fn a_client_that_answers_pings_stays() {
    let (socket, mut client) = socket(&["--heartbeat", "4"]);
    let running = tokio::spawn(socket.run());
    for _ in 0..20 {
        let mut ping = [0; 2];
        client.read_exact(&mut ping).await.expect("it is read");
        assert_eq!(ping, [0x89, 0]);
        // Just in time.
        sleep(Duration::from_millis(1900)).await;
        client.write_all(&[0x8a, 0x80, 0, 0, 0, 0]).await.expect("it is there");
    }
    client.write_all(&frame("stats\n")).await.expect("it is there");
    let mut told = [0; 11];
    client.read_exact(&mut told).await.expect("it is read");
    assert!(told.ends_with(b"0 0 stats"), "{told:?}");
    running.abort();
}

/// The clock goes on while nobody works, as it does where a whole machine stood still.
#[tokio::test(start_paused = true)]
async fn what_has_come_goes_before_silence() {
    for _ in 0..50 {
        let (mut socket, mut client) = socket(&["--heartbeat", "4"]);
        let resting = tokio::spawn(async move { socket.rest().await });
        tokio::task::yield_now().await;
        // Both are ready once it is asked again.
        client.write_all(&frame("stats\n")).await.expect("it is there");
        tokio::time::advance(Duration::from_secs(60)).await;
        assert_eq!(resting.await.expect("it doesn't panic"), Ok(()));
    }
}

#[tokio::test]
async fn a_session_that_is_silent_for_too_long_is_told_so() {
    let (socket, mut client) = socket(&[]);
    let (server, seat) = (socket.seated.server.clone(), socket.seated.session.seat);
    let running = tokio::spawn(socket.run());
    server.door.run(|core| core.seats.taken(seat).expect("it is taken").tell_to_end(EndedBy::Silence));
    let mut told = Vec::new();
    client.read_to_end(&mut told).await.expect("it is read");
    assert_eq!(told, closed(POLICY, "silent"));
    drop(client);
    running.await.expect("it doesn't panic");
}

#[tokio::test(start_paused = true)]
async fn a_session_that_waits_for_the_lane_can_be_cut() {
    let (socket, mut client) = socket(&[]);
    let (server, connection) = (socket.seated.server.clone(), socket.connection.clone());
    server.door.run(|core| {
        let mut one = crate::testing::session(core);
        let rows: String = (0..5).map(|row| format!("put . k{row} {}\n", "v".repeat(65_000))).collect();
        say(core, &mut one, &format!("begin\n{rows}commit .\n"));
        crate::testing::end(core, &one);
    });
    let calls = || server.door.run(|core| core.ledger.calls);
    let (before, lane) = (calls(), server.door.keep_lane().await);
    client.write_all(&frame("scanat 1 - -\n")).await.expect("there is room");
    let mut running = Box::pin(socket.run());
    assert!(timeout(Duration::from_secs(5), &mut running).await.is_err());
    connection.cut();
    timeout(4 * LINGER, running).await.expect("it ends");
    assert_eq!((server.door.run(|core| core.seats.count()), calls()), (0, before));
    drop(lane);
}

#[tokio::test(start_paused = true)]
async fn a_session_whose_client_reads_nothing_can_be_ended() {
    let (socket, mut client) = socket(&[]);
    let flood = async {
        let lines = frame(&"stats\n".repeat(1000));
        while client.write_all(&lines).await.is_ok() {}
    };
    tokio::join!(flood, ended_soon(socket));
}

/// Runs a socket, and ends its session after a while.
async fn ended_soon(socket: Socket) {
    let (server, seat) = (socket.seated.server.clone(), socket.seated.session.seat);
    let running = tokio::spawn(socket.run());
    sleep(Duration::from_millis(50)).await;
    server.door.run(|core| core.seats.taken(seat).expect("it is taken").tell_to_end(EndedBy::Operator));
    timeout(4 * LINGER, running).await.expect("it ends").expect("it doesn't panic");
    assert_eq!(server.door.run(|core| core.seats.count()), 0);
}
