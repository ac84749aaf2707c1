//! What the wrapper tells without a call.

use ripsawbean::{version, Database, Held, NoMemory, VersionError};

fn open() -> Database {
    Database::open(4).expect("it opens")
}

/// Makes calls that aren't refused.
fn call(db: &mut Database, lines: &[&str]) {
    for line in lines {
        let event = db.call(format!("{line}\n")).expect("a call");
        assert_eq!(event.refusal(), None, "{line}");
    }
}

#[test]
fn the_version_of_the_library_is_the_crate_s() {
    let (first, second, third) = version();
    assert_eq!(format!("{first}.{second}.{third}"), env!("CARGO_PKG_VERSION"));
}

#[test]
fn how_far_it_has_come() {
    let mut db = open();
    let places = db.places(None);
    assert_eq!((places.closed, places.horizon, places.limit, places.reached), (0, 0, 0, 0));
    assert_eq!((places.oldest, places.floor), (None, None));
    call(&mut db, &["0 begin 10", "0 begin 20", "0 abort 20", "1 open - - 3", "0 closehard 5"]);
    let places = db.places(Some(1));
    assert_eq!((places.closed, places.horizon, places.limit, places.reached), (5, 0, 3, 20));
    assert_eq!((places.oldest, places.floor), (Some(10), Some(3)));
    assert_eq!(db.places(Some(2)).floor, None);
    assert_eq!(db.text().expect("a text").expect("an event").position(), 4);
}

#[test]
fn versions_of_keys() {
    let mut db = open();
    call(&mut db, &["0 begin 10", "0 put 10 a 1", "0 put 10 b 1", "0 commit 10"]);
    call(&mut db, &["0 begin 20", "0 del 20 b", "0 commit 20", "1 begin 30", "1 put 30 a 3"]);
    let mut told = vec![Some(99)];
    assert_eq!(db.versions_at(40, &[b"a", b"b", b"c"], &mut told), Ok(()));
    assert_eq!(told, [Some(10), None, None]);
    assert_eq!(db.versions_at(19, &[b"b"], &mut told), Ok(()));
    assert_eq!(told, [Some(10)]);
    assert_eq!(db.versions_at(19, &[], &mut told), Ok(()));
    assert_eq!(told, []);
    for key in [b"".as_slice(), &[b'k'; 257], &[b'k'; 65536], &[b'k'; 65537]] {
        assert_eq!(db.versions_at(40, &[b"a", key, b"a"], &mut told), Err(VersionError::KeyLength));
        assert_eq!(told, [Some(10)]);
    }
    let longest = [0xffu8; 256];
    assert_eq!(db.versions_at(40, &[&longest, b"a"], &mut told), Ok(()));
    assert_eq!(told, [None, Some(10)]);
    call(&mut db, &["0 close 25", "0 collect 25"]);
    assert_eq!(db.versions_at(24, &[b"a"], &mut told), Err(VersionError::BelowHorizon));
    assert_eq!(told, []);
    assert_eq!(db.versions_at(25, &[b"a"], &mut told), Ok(()));
    assert_eq!(told, [Some(10)]);
}

#[test]
fn what_a_seat_holds() {
    let mut db = open();
    assert_eq!(db.held_by(0), Ok::<_, NoMemory>(vec![]));
    call(&mut db, &["2 begin 10", "2 put 10 a 1", "1 begin 20", "2 open - - 4", "1 open - - 5", "1 protect 6"]);
    let held = [
        Held::Transaction { timestamp: 10, keys: 1 },
        Held::Feed { number: 1, floor: 4 },
        Held::Protection { number: 1, timestamp: 6 },
    ];
    assert_eq!(db.held_by(2).expect("it is told"), held);
    assert_eq!(db.held_by(63).expect("it is told"), held[2..]);
    for ts in 100..300 {
        db.begin(3, ts).expect("it begins");
    }
    let held = db.held_by(3).expect("it is told");
    assert_eq!(held.len(), 201);
    assert_eq!(held[199], Held::Transaction { timestamp: 299, keys: 0 });
}
