//! What the wrapper dumps.

use ripsawbean::{Database, DumpError, DumpPlace};

/// 10 wrote a and b, 20 wrote a, and 30 has begun.
fn filled() -> Database {
    let mut db = Database::open(4).expect("it opens");
    let lines = ["0 begin 10", "0 put 10 a 1", "0 put 10 b -", "0 commit 10", "0 begin 20", "0 put 20 a 2"];
    for line in lines.into_iter().chain(["0 commit 20", "0 close 15", "1 begin 30", "1 put 30 a 3"]) {
        db.call(format!("{line}\n")).expect("a call");
    }
    db
}

const FIRST: &str = "0 begin 10\n0 put 10 a 1\n0 put 10 b -\n";
const SECOND: &str = "0 commit 10\n0 begin 20\n0 put 20 a 2\n";
const LAST: &str = "0 commit 20\n0 close 30\n0 collect 0\n";

#[test]
fn the_whole_dump() {
    let mut db = filled();
    let mut script = Vec::new();
    db.dump(0, &mut script).expect("it is written");
    assert_eq!(String::from_utf8(script).expect("a text"), format!("{FIRST}{SECOND}{LAST}"));
    assert_eq!(db.text().expect("a text").expect("an event").position(), 9);
    let mut script = Vec::new();
    Database::open(1).expect("it opens").dump(40, &mut script).expect("it is written");
    assert_eq!(script, b"0 close 40\n0 collect 0\n");
    let error = db.dump(1 << 63, &mut Vec::new()).expect_err("no timestamp");
    assert_eq!(error.kind(), std::io::ErrorKind::InvalidInput);
}

#[test]
fn pieces() {
    let mut db = filled();
    let (mut place, mut out) = (DumpPlace::start(), [0; 40]);
    for (text, through) in [(FIRST, 9), (SECOND, 19), (LAST, u64::MAX)] {
        assert!(!place.has_ended());
        let length = db.dump_piece(0, u64::MAX, &mut place, &mut out).expect("a piece");
        assert_eq!((&out[..length], place.through()), (text.as_bytes(), through));
    }
    assert!(place.has_ended());
    assert_eq!(db.dump_piece(0, u64::MAX, &mut place, &mut out), Ok(0));
    assert!(place.has_ended());
}

#[test]
fn pieces_through_a_timestamp() {
    let mut db = filled();
    let (mut place, mut out) = (DumpPlace::default(), [0; 99]);
    let length = db.dump_piece(0, 15, &mut place, &mut out).expect("a piece");
    assert_eq!(out[..length], *format!("{FIRST}0 commit 10\n").as_bytes());
    assert_eq!((place.through(), place.has_ended()), (15, false));
    assert_eq!(db.dump_piece(0, 15, &mut place, &mut out), Ok(0));
    assert_eq!(db.dump_piece(0, 14, &mut place, &mut out), Ok(0));
    assert_eq!((place.through(), place.has_ended()), (15, false));
    db.call("1 commit 30\n").expect("a call");
    let length = db.dump_piece(0, u64::MAX, &mut place, &mut out).expect("a piece");
    let rest =
        "0 begin 20\n0 put 20 a 2\n0 commit 20\n0 begin 30\n0 put 30 a 3\n0 commit 30\n0 close 30\n0 collect 0\n";
    assert_eq!(out[..length], *rest.as_bytes());
}

#[test]
fn what_is_not_shown() {
    let mut db = filled();
    let mut place = DumpPlace::start();
    assert_eq!(db.dump_piece(0, u64::MAX, &mut place, &mut [0; 23]), Err(DumpError::NoRoom(24)));
    assert_eq!(db.dump_piece(1 << 63, u64::MAX, &mut place, &mut [0; 99]), Err(DumpError::Timestamp));
    assert_eq!(place, DumpPlace::start());
    assert_eq!(DumpError::NoRoom(24).to_string(), "the next lines of the dump have 24 bytes");
}
