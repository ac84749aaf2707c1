//! The wrapper over the library: each status that a program can bring about, and texts of any length.

use ripsawbean::{CallError, Command, Database, LineFault, Message, OpenError, PollError, Row, Span};
use std::sync::Mutex;

fn open() -> Database {
    Database::open(1024).expect("it opens")
}

fn answer(db: &mut Database, seat: u8, command: Command) -> String {
    db.make(seat, command).expect("a call").answer().to_string()
}

#[test]
fn rings() {
    for ring in [0, 65537, u32::MAX] {
        assert_eq!(Database::open(ring).err(), Some(OpenError::RingRange));
    }
    for ring in [1, 65536] {
        let mut db = Database::open(ring).expect("it opens");
        assert_eq!(answer(&mut db, 0, Command::Stats), "stats 0 0 0 0 0");
    }
}

#[test]
fn each_fault_of_a_line() {
    let mut db = open();
    db.make(0, Command::Begin { ts: 10 }).expect("a call");
    let key = "k".repeat(257);
    for (line, fault) in [
        ("\n".to_string(), LineFault::WordCount),
        ("0 put 10 a\n".to_string(), LineFault::WordCount),
        ("0  stats\n".to_string(), LineFault::WordCount),
        ("0 fly\n".to_string(), LineFault::UnknownCommand),
        ("0 begin 01\n".to_string(), LineFault::Number),
        ("0 begin 18446744073709551616\n".to_string(), LineFault::Number),
        ("0 get 10 -\n".to_string(), LineFault::KeyLength),
        (format!("0 get 10 {key}\n"), LineFault::KeyLength),
        (format!("0 scan 10 - {key}k\n"), LineFault::KeyLength),
        (format!("0 put 10 a {}\n", "v".repeat(65537)), LineFault::ValueLength),
        ("64 stats\n".to_string(), LineFault::Session),
        ("0 stats".to_string(), LineFault::NoNewline),
        (String::new(), LineFault::NoNewline),
        (format!("{}\n", "0".repeat(200_001)), LineFault::LineTooLong),
        ("0 get 10 %41\n".to_string(), LineFault::BadByte),
        ("0 get 10 é\n".to_string(), LineFault::BadByte),
    ] {
        assert_eq!(db.call(&line).err(), Some(CallError::Line(fault)), "{:.40}", line);
        // No call was made, and the last text stands.
        assert_eq!(db.text().expect("a text").expect("an event").text(), "0 0 begin 10 => started\n");
    }
    assert_eq!(db.call(b"0 get 10 \x00\n").err(), Some(CallError::Line(LineFault::BadByte)));
    assert_eq!(db.call("0 stats\n").expect("a call").text(), "1 0 stats => stats 0 1 0 0 0\n");
}

#[test]
fn values_of_any_bytes() {
    let mut db = open();
    let key = [7u8; 256];
    let value: Vec<u8> = (0..65536u32).map(|i| (i % 256) as u8).collect();
    assert_eq!(db.make(63, Command::Begin { ts: 10 }).expect("a call").position(), 0);
    for (key, value) in [(key.as_slice(), value.as_slice()), (b"-", b""), (b"a b", b"-"), (b"=>", b"=>")] {
        assert_eq!(answer(&mut db, 63, Command::Put { ts: 10, key, value }), "written");
        let read = db.make(63, Command::Get { ts: 10, key }).expect("a call").value();
        assert_eq!(read.as_deref(), Some(value));
    }
    assert_eq!(answer(&mut db, 63, Command::Get { ts: 10, key: b"none" }), "none");
    let span = Span { lo: b"a", hi: Some(b"a!") };
    let rows: Vec<_> = db.make(63, Command::Scan { ts: 10, span }).expect("a call").rows().collect();
    assert_eq!(rows, [(b"a b".to_vec(), b"-".to_vec())]);
    let none = Span { lo: b"", hi: Some(b"") };
    assert_eq!(answer(&mut db, 63, Command::Scan { ts: 10, span: none }), "rows 0");
    assert_eq!(db.make(63, Command::Scan { ts: 10, span: Span::ALL }).expect("a call").rows().count(), 4);
    assert_eq!(db.make(63, Command::Commit { ts: 10 }).expect("a call").number(), Some(4));
    assert_eq!(db.make(0, Command::Commit { ts: 10 }).expect("a call").refusal(), Some("notowner"));
}

#[test]
fn each_command_has_its_line() {
    let mut db = open();
    let (key, span) = (b"k".as_slice(), Span { lo: b"a", hi: Some(b"z") });
    for (position, (command, words)) in [
        (Command::Begin { ts: 9 }, "begin 9 => started"),
        (Command::Get { ts: 9, key }, "get 9 k => none"),
        (Command::Scan { ts: 9, span }, "scan 9 a z => rows 0"),
        (Command::Put { ts: 9, key, value: b"v" }, "put 9 k v => written"),
        (Command::Del { ts: 9, key }, "del 9 k => written"),
        (Command::Commit { ts: 9 }, "commit 9 => committed 1"),
        (Command::Abort { ts: 9 }, "abort 9 => ended"),
        (Command::Close { to: 9 }, "close 9 => closed 9 0"),
        (Command::CloseHard { to: 10 }, "closehard 10 => closed 10 0"),
        (Command::ReadAt { t: 9, key }, "readat 9 k => none"),
        (Command::ScanAt { t: 9, span: Span::ALL }, "scanat 9 - - => rows 0"),
        (Command::Protect { t: 9 }, "protect 9 => protected 1"),
        (Command::Release { id: 1 }, "release 1 => released"),
        (Command::Collect { to: 8 }, "collect 8 => collected 8 0"),
        (Command::Open { span, cursor: 10 }, "open a z 10 => opened 1"),
        (Command::OpenInitial { span, cursor: 10 }, "openinitial a z 10 => opened 2"),
        (Command::OpenEvery { span, cursor: 10, gap: 5 }, "openevery a z 10 5 => opened 3"),
        (Command::OpenInitialEvery { span, cursor: 10, gap: 5 }, "openinitialevery a z 10 5 => opened 4"),
        (Command::Poll { feed: 1, max: 1 }, "poll 1 1 => messages 0"),
        (Command::Cancel { feed: 1 }, "cancel 1 => cancelled"),
        (Command::Stats, "stats => stats 1 0 3 10 8"),
    ]
    .into_iter()
    .enumerate()
    {
        assert_eq!(db.make(5, command).expect("a call").text(), format!("{position} 5 {words}\n"));
    }
}

#[test]
fn a_text_that_outgrows_the_buffer() {
    let mut db = open();
    assert_eq!(db.text(), Ok(None));
    db.make(0, Command::Begin { ts: 1 }).expect("a call");
    let value = vec![b'v'; 65536];
    for i in 0..40 {
        let key = format!("k{i}");
        db.make(0, Command::Put { ts: 1, key: key.as_bytes(), value: &value }).expect("a call");
    }
    let scan = db.make(0, Command::Scan { ts: 1, span: Span::ALL }).expect("a call");
    let (text, rows) = (scan.text().to_string(), scan.rows().count());
    assert_eq!(rows, 40);
    assert_eq!(db.text().expect("a text").expect("an event").text(), text);
    // With less room than it needs, too.
    db.shrink(10);
    assert_eq!(db.text().expect("a text").expect("an event").text(), text);
    assert_eq!(db.make(0, Command::Stats).expect("a call").position(), 42);
}

#[test]
fn the_state_makes_no_call() {
    let mut db = open();
    for line in ["0 begin 5\n", "0 put 5 a 1\n", "0 commit 5\n", "0 close 9\n", "0 protect 7\n", "3 begin 12\n"] {
        db.call(line).expect("a call");
    }
    let last = db.text().expect("a text").expect("an event").text().to_string();
    let told = [
        r#"{"kind":"database","closed":"9","horizon":"0","limit":"7","holder":"protection","holder_number":"1","oldest":"12","oldest_seat":"3","versions":"1"}"#,
        r#"{"kind":"transaction","timestamp":"12","seat":"3","keys":"0"}"#,
        r#"{"kind":"protection","number":"1","timestamp":"7"}"#,
    ];
    assert_eq!(db.state().expect("a state").lines().collect::<Vec<_>>(), told);
    assert_eq!(db.text().expect("a text").expect("an event").text(), last);
    assert_eq!(db.make(0, Command::Stats).expect("a call").position(), 6);
}

#[test]
fn a_state_that_outgrows_the_buffer() {
    let mut db = open();
    for ts in 1..200 {
        db.make(0, Command::Begin { ts }).expect("a call");
    }
    assert_eq!(db.state().expect("a state").lines().count(), 200);
}

#[test]
fn messages_whatever_the_most_of_a_poll() {
    let mut db = open();
    db.make(0, Command::Begin { ts: 10 }).expect("a call");
    for key in [b"a", b"b", b"c"] {
        db.make(0, Command::Put { ts: 10, key, value: b"\xff-" }).expect("a call");
    }
    db.make(0, Command::Commit { ts: 10 }).expect("a call");
    db.make(0, Command::Begin { ts: 20 }).expect("a call");
    db.make(0, Command::Del { ts: 20, key: b"b" }).expect("a call");
    db.make(0, Command::Commit { ts: 20 }).expect("a call");
    db.make(0, Command::Close { to: 20 }).expect("a call");
    let row = |key: &[u8], after: Option<&[u8]>, updated| {
        Message::Row(Row { key: key.to_vec(), after: after.map(<[u8]>::to_vec), updated })
    };
    let value = Some(b"\xff-".as_slice());
    let all =
        [row(b"a", value, 10), row(b"b", value, 10), row(b"c", value, 10), row(b"b", None, 20), Message::Resolved(20)];
    for max in 0..8 {
        let feed =
            db.make(3, Command::Open { span: Span::ALL, cursor: 0 }).expect("a call").number().expect("its number");
        assert_eq!(db.messages(3, feed, max).collect::<Result<Vec<_>, _>>().expect("messages"), all);
        assert_eq!(db.messages(3, feed, max).count(), 0);
        let mut others = db.messages(0, feed, max);
        assert_eq!(others.next(), Some(Err(PollError::Refused("notowner".to_string()))));
        assert_eq!(others.next(), None);
    }
}

#[test]
fn each_database_is_its_own() {
    let (mut one, mut other) = (open(), open());
    one.make(0, Command::Begin { ts: 1 }).expect("a call");
    assert_eq!(answer(&mut other, 0, Command::Commit { ts: 1 }), "notxn");
    // A database may be moved while it is open, and to another thread.
    let mut moved = Box::new(one);
    assert_eq!(answer(&mut moved, 0, Command::Commit { ts: 1 }), "committed 0");
    let position = std::thread::spawn(move || moved.make(0, Command::Stats).expect("a call").position());
    assert_eq!(position.join().expect("its thread ends"), 2);
}

#[test]
fn threads_take_turns_behind_a_lock() {
    let db = Mutex::new(open());
    std::thread::scope(|threads| {
        for seat in 0..8u8 {
            let db = &db;
            threads.spawn(move || {
                for i in 0..100 {
                    let ts = 1 + u64::from(seat) + 8 * i;
                    let mut db = db.lock().expect("no thread ends midway");
                    let text = db.make(seat, Command::Begin { ts }).expect("a call").text().to_string();
                    assert!(text.ends_with(&format!(" {seat} begin {ts} => started\n")), "{text}");
                }
            });
        }
    });
    assert_eq!(answer(&mut db.into_inner().expect("no thread ends midway"), 0, Command::Stats), "stats 0 800 0 0 0");
}
