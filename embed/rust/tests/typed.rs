//! Calls without lines: the same events as by lines, and what they find as values.

use ripsawbean::{
    CallError, Closed, CommandError, CommandKind, Database, LineFault, Message, Outcome, Record, Refusal, Row, Told,
};

fn open() -> Database {
    Database::open(1024).expect("it opens")
}

fn last(db: &mut Database) -> String {
    db.text().expect("a text").expect("an event").text().to_string()
}

fn refused(refusal: Refusal) -> CommandError {
    CommandError::Refused(refusal)
}

fn fault(fault: LineFault) -> CommandError {
    CommandError::Call(CallError::Line(fault))
}

#[test]
fn each_call_is_the_event_of_its_line() {
    let mut db = open();
    assert_eq!(db.bytes(), Ok(b"".as_slice()));
    assert_eq!(db.begin(5, 10), Ok(()));
    assert_eq!(last(&mut db), "0 5 begin 10 => started\n");
    assert_eq!(db.put(5, 10, b"a b", b"\xff"), Ok(()));
    assert_eq!(last(&mut db), "1 5 put 10 a%20b %FF => written\n");
    assert_eq!(db.put(5, 10, b"c", b""), Ok(()));
    assert_eq!(last(&mut db), "2 5 put 10 c - => written\n");
    assert_eq!(db.get(5, 10, b"a b"), Ok(Some(b"\xff".as_slice())));
    assert_eq!(last(&mut db), "3 5 get 10 a%20b => value %FF\n");
    assert_eq!(db.bytes(), Ok(b"\xff".as_slice()));
    assert_eq!(db.get(5, 10, b"c"), Ok(Some(b"".as_slice())));
    assert_eq!(db.get(5, 10, b"d"), Ok(None));
    assert_eq!(last(&mut db), "5 5 get 10 d => none\n");
    assert_eq!(db.commit(5, 10), Ok(2));
    assert_eq!(last(&mut db), "6 5 commit 10 => committed 2\n");
    assert_eq!(db.begin(6, 20), Ok(()));
    assert_eq!(db.delete(6, 20, b"c"), Ok(()));
    assert_eq!(last(&mut db), "8 6 del 20 c => written\n");
    assert_eq!(db.abort(6, 20), Ok(()));
    assert_eq!(last(&mut db), "9 6 abort 20 => aborted\n");
    assert_eq!(db.close_to(7, 30), Ok(Closed { at: 30, aborted: 0 }));
    assert_eq!(last(&mut db), "10 7 close 30 => closed 30 0\n");
    assert_eq!(db.read_at(7, 30, b"a b"), Ok(Some(b"\xff".as_slice())));
    assert_eq!(db.read_at(7, 9, b"a b"), Ok(None));
    assert_eq!(last(&mut db), "12 7 readat 9 a%20b => none\n");
}

#[test]
fn each_refusal() {
    let mut db = open();
    db.begin(0, 10).expect("a call");
    assert_eq!(db.begin(0, 10), Err(refused(Refusal::TsUsed)));
    assert_eq!(db.begin(0, u64::MAX), Err(refused(Refusal::TsRange)));
    assert_eq!(db.get(1, 10, b"a"), Err(refused(Refusal::NotOwner)));
    assert_eq!(db.commit(0, 11), Err(refused(Refusal::NoTxn)));
    db.put(0, 10, b"a", b"1").expect("a call");
    db.begin(0, 20).expect("a call");
    assert_eq!(db.get(0, 20, b"a"), Err(refused(Refusal::Blocked(10))));
    db.commit(0, 10).expect("a call");
    assert_eq!(db.put(0, 10, b"a", b"2"), Err(refused(Refusal::Ended)));
    db.get(0, 20, b"a").expect("a call");
    db.begin(0, 15).expect("a call");
    assert_eq!(db.delete(0, 15, b"a"), Err(refused(Refusal::TooLate)));
    assert_eq!(db.read_at(0, 20, b"a"), Err(refused(Refusal::NotClosed(0))));
    db.abort(0, 20).expect("a call");
    db.close_to(0, 30).expect("a call");
    assert_eq!(db.begin(0, 30), Err(refused(Refusal::BelowClosed(30))));
    db.call("0 collect 25\n").expect("a call");
    assert_eq!(db.read_at(0, 24, b"a"), Err(refused(Refusal::BelowHorizon(25))));
    assert_eq!(db.poll(0, 1, 9).err(), Some(refused(Refusal::NoFeed)));
    db.call("0 open - - 30\n").expect("a call");
    db.call("0 cancel 1\n").expect("a call");
    assert_eq!(db.poll(0, 1, 9).err(), Some(refused(Refusal::FeedCancelled)));
    assert_eq!(refused(Refusal::Blocked(7)).to_string(), "the command is refused: blocked 7");
    assert_eq!(last(&mut db), "22 0 poll 1 9 => feedcancelled\n");
}

#[test]
fn faulty_parts_make_no_call() {
    let mut db = open();
    db.begin(0, 10).expect("a call");
    let (key, value) = (vec![b'k'; 257], vec![b'v'; 65537]);
    assert_eq!(db.begin(64, 10), Err(fault(LineFault::Session)));
    assert_eq!(db.poll(255, 1, 1).err(), Some(fault(LineFault::Session)));
    assert_eq!(db.get(0, 10, b""), Err(fault(LineFault::KeyLength)));
    assert_eq!(db.delete(0, 10, &key), Err(fault(LineFault::KeyLength)));
    assert_eq!(db.put(64, 10, &key, &value), Err(fault(LineFault::Session)));
    assert_eq!(db.put(0, 10, &key, &value), Err(fault(LineFault::KeyLength)));
    assert_eq!(db.put(0, 10, &key[1..], &value), Err(fault(LineFault::ValueLength)));
    assert_eq!(last(&mut db), "0 0 begin 10 => started\n");
}

#[test]
fn values_and_messages_that_outgrow_the_buffer() {
    let mut db = open();
    let value: Vec<u8> = (0..65536u32).map(|i| (i % 251) as u8).collect();
    db.begin(0, 1).expect("a call");
    db.put(0, 1, &[7; 256], &value).expect("a call");
    assert_eq!(db.get(0, 1, &[7; 256]), Ok(Some(value.as_slice())));
    assert_eq!(db.bytes(), Ok(value.as_slice()));
    let mut all = vec![Message::Row(Row { key: vec![7; 256], after: Some(value.clone()), updated: 1 })];
    for i in 10..40u8 {
        db.put(0, 1, &[i], &value).expect("a call");
        all.push(Message::Row(Row { key: vec![i], after: Some(value.clone()), updated: 1 }));
    }
    // Keys rise by their bytes.
    db.commit(0, 1).expect("a call");
    db.begin(0, 2).expect("a call");
    db.delete(0, 2, &[20]).expect("a call");
    db.commit(0, 2).expect("a call");
    db.close_to(0, 2).expect("a call");
    all.push(Message::Row(Row { key: vec![20], after: None, updated: 2 }));
    all.push(Message::Resolved(2));
    let feed = db.call("3 open - - 0\n").expect("a call").number().expect("its number");
    assert_eq!(db.poll(3, feed, 100).expect("a poll").collect::<Vec<_>>(), all);
    assert_eq!(Told::of(db.bytes().expect("bytes")).collect::<Vec<_>>(), all);
    // The event's text tells the same, and a second poll nothing.
    let text: Vec<_> = db.text().expect("a text").expect("an event").messages().collect();
    assert_eq!(text, all);
    assert_eq!(db.poll(3, feed, 100).expect("a poll").count(), 0);
}

#[test]
fn the_last_event() {
    let mut db = open();
    assert_eq!(db.last(), None);
    let script = [
        ("0 begin 10\n", 0, CommandKind::Begin, 10, Outcome::Started),
        ("0 put 10 a 1\n", 0, CommandKind::Put, 10, Outcome::Written),
        ("0 get 10 a\n", 0, CommandKind::Get, 10, Outcome::Value(1)),
        ("0 get 10 b\n", 0, CommandKind::Get, 10, Outcome::None),
        ("0 scan 10 - -\n", 0, CommandKind::Scan, 10, Outcome::Rows(1)),
        ("1 begin 15\n", 1, CommandKind::Begin, 15, Outcome::Started),
        ("1 get 15 a\n", 1, CommandKind::Get, 15, Outcome::Refused(Refusal::Blocked(10))),
        ("1 stats\n", 1, CommandKind::Stats, 0, Outcome::Stats { versions: 1, undecided: 2 }),
        ("0 commit 10\n", 0, CommandKind::Commit, 10, Outcome::Committed(1)),
        ("63 closehard 20\n", 63, CommandKind::CloseHard, 20, Outcome::Closed(Closed { at: 20, aborted: 1 })),
        ("4 protect 20\n", 4, CommandKind::Protect, 20, Outcome::Protected(1)),
        ("4 release 1\n", 4, CommandKind::Release, 1, Outcome::Released),
        ("5 open - - 9\n", 5, CommandKind::Open, 9, Outcome::Opened(1)),
        ("5 poll 1 9\n", 5, CommandKind::Poll, 1, Outcome::Messages(2)),
        ("6 cancel 1\n", 6, CommandKind::Cancel, 1, Outcome::Cancelled),
        ("8 collect 19\n", 8, CommandKind::Collect, 19, Outcome::Collected { horizon: 19, removed: 0 }),
    ];
    for (position, (line, seat, command, at, outcome)) in (0..).zip(script) {
        db.call(line).expect("a call");
        let record = Record { position, seat, command, at, outcome };
        assert_eq!(db.last(), Some(record));
        db.call("0 begin\n").expect_err("a fault");
        assert_eq!(db.last(), Some(record));
    }
}
