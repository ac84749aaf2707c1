//! Answers with a bound: scans and polls as far as they find room.

use ripsawbean::{CallError, CommandError, Database, LineFault, Message, Refusal, Room, Rows, Span};

fn open() -> Database {
    Database::open(1024).expect("it opens")
}

fn room(rows: u64, bytes: u64) -> Room {
    Room { rows, bytes }
}

const ALL: u64 = u64::MAX;

type Pairs = Vec<(Vec<u8>, Vec<u8>)>;

fn read(rows: Rows<'_>) -> (Pairs, Option<Vec<u8>>) {
    let end = rows.end().map(<[u8]>::to_vec);
    (rows.map(|(key, value)| (key.to_vec(), value.to_vec())).collect(), end)
}

fn three() -> (Database, Pairs) {
    let mut db = open();
    let rows: Pairs = [("a", "12345"), ("c", "1234567890"), ("d", "1")].map(|(k, v)| (k.into(), v.into())).into();
    db.begin(0, 10).expect("a call");
    for (key, value) in &rows {
        db.put(0, 10, key, value).expect("a call");
    }
    db.delete(0, 10, b"b").expect("a call");
    (db, rows)
}

#[test]
fn scans() {
    let (mut db, rows) = three();
    for (most, bytes, told, end) in [
        (9, 70, 3, None),
        (9, 69, 2, Some("d")),
        (9, 51, 2, Some("d")),
        (9, 50, 1, Some("c")),
        (9, 22, 1, Some("a\0")),
        (0, ALL, 1, Some("a\0")),
        (2, ALL, 2, Some("d")),
        (ALL, ALL, 3, None),
    ] {
        let found = read(db.scan_within(0, 10, Span::ALL, room(most, bytes)).expect("rows"));
        assert_eq!(found, (rows[..told].to_vec(), end.map(|end| end.as_bytes().to_vec())));
        assert_eq!(read(Rows::of(db.bytes().expect("bytes"))), found);
        let (event, end) = (db.text().expect("a text").expect("an event").text(), end.unwrap_or("-").replace('\0', "%00"));
        assert!(event.contains(&format!(" 0 scan 10 - {end} => rows {told}\n")), "{event}");
    }
    let span = Span { lo: b"b", hi: Some(b"d") };
    assert_eq!(
        read(db.scan_within(0, 10, span, room(9, ALL)).expect("rows")),
        (rows[1..2].to_vec(), Some(b"d".to_vec()))
    );
    let none = Span { lo: b"b", hi: Some(b"") };
    assert_eq!(read(db.scan_within(0, 10, none, room(9, ALL)).expect("rows")).0, []);
    let long = [b'z'; 258];
    let fault = CommandError::Call(CallError::Line(LineFault::KeyLength));
    assert_eq!(db.scan_within(0, 10, Span { lo: &long, hi: None }, room(9, ALL)).err(), Some(fault));
    let end = Span { lo: b"x", hi: Some(&long[1..]) };
    assert_eq!(db.scan_within(0, 10, end, room(9, ALL)).expect("rows").end(), Some(&long[1..]));
    let owner = CommandError::Refused(Refusal::NotOwner);
    assert_eq!(db.scan_within(1, 10, Span::ALL, room(9, ALL)).err(), Some(owner));
}

#[test]
fn scans_at_a_closed_timestamp() {
    let (mut db, rows) = three();
    let early = CommandError::Refused(Refusal::NotClosed(0));
    assert_eq!(db.scan_at_within(1, 10, Span::ALL, room(9, ALL)).err(), Some(early));
    db.commit(0, 10).expect("a call");
    db.close_to(0, 10).expect("a call");
    let found = read(db.scan_at_within(1, 10, Span::ALL, room(1, ALL)).expect("rows"));
    assert_eq!(found, (rows[..1].to_vec(), Some(b"c".to_vec())));
    let found = read(db.scan_at_within(1, 10, Span::ALL, room(0, 0)).expect("rows"));
    assert_eq!(found, (rows[..1].to_vec(), Some(b"a\0".to_vec())));
    assert_eq!(read(db.scan_at_within(1, 9, Span::ALL, room(0, 0)).expect("rows")), (vec![], None));
}

#[test]
fn a_span_in_pieces() {
    let mut db = open();
    let rows: Pairs = (0..200u32).map(|i| (i.to_be_bytes().to_vec(), vec![7; i as usize * 31 % 500])).collect();
    db.begin(0, 1).expect("a call");
    for (key, value) in &rows {
        db.put(0, 1, key, value).expect("a call");
    }
    // A row has 521 bytes at most, and the first one of each piece is told in any case.
    for bytes in [0, 21, 100, 521, 522, 5000, 100000] {
        let (mut told, mut from) = (Vec::new(), Vec::new());
        loop {
            let span = Span { lo: &from, hi: None };
            let (piece, end) = read(db.scan_within(0, 1, span, room(7, bytes)).expect("rows"));
            assert!(!piece.is_empty() && piece.len() <= 7 || end.is_none());
            let weight = piece.iter().map(|(key, value)| 17 + key.len() + value.len()).sum::<usize>();
            assert!(weight as u64 <= bytes || piece.len() == 1);
            told.extend(piece);
            match end {
                Some(end) => from = end,
                None => break,
            }
        }
        assert_eq!(told, rows);
    }
}

#[test]
fn polls() {
    let (mut db, _) = three();
    db.commit(0, 10).expect("a call");
    db.close_to(0, 20).expect("a call");
    let feed = db.call("3 open - - 0\n").expect("a call").number().expect("its number");
    // 23, 18, 28, 19 and 17 bytes
    for (max, bytes, told) in [(0, ALL, 0), (9, 22, 1), (9, 46, 2), (9, 18, 1), (9, 0, 1), (9, ALL, 0)] {
        let messages: Vec<Message> = db.poll_within(3, feed, max, bytes).expect("a poll").collect();
        assert_eq!(messages.len(), told, "{max} {bytes}");
    }
    assert_eq!(db.poll_within(3, 7, 9, ALL).err(), Some(CommandError::Refused(Refusal::NoFeed)));
}
