//! Many lines at once: what each tells is what it tells alone.

use ripsawbean::{CallError, Database, LineFault, MOST_ROWS};

fn open() -> Database {
    Database::open(1024).expect("it opens")
}

fn told(db: &mut Database, lines: &[u8]) -> Vec<Result<String, CallError>> {
    let calls = db.calls(lines);
    assert_eq!(calls.taken(), lines.len());
    let count = calls.len();
    let told: Vec<_> = calls.map(|result| result.map(|event| event.text().to_string())).collect();
    assert_eq!(told.len(), count);
    told
}

#[test]
fn lines_and_their_faults() {
    let mut db = open();
    let lines = b"0 begin 10\n\n0 put 10 a 1\n0 fly\n0 scan 10 - -\n64 stats\n0 get 10 \x00\n0 commit 10\n0 stats";
    assert_eq!(
        told(&mut db, lines),
        [
            Ok("0 0 begin 10 => started\n".to_string()),
            Err(CallError::Line(LineFault::WordCount)),
            Ok("1 0 put 10 a 1 => written\n".to_string()),
            Err(CallError::Line(LineFault::UnknownCommand)),
            Ok("2 0 scan 10 - - => rows 1\nrow a 1\n".to_string()),
            Err(CallError::Line(LineFault::Session)),
            Err(CallError::Line(LineFault::BadByte)),
            Ok("3 0 commit 10 => committed 1\n".to_string()),
            Err(CallError::Line(LineFault::NoNewline)),
        ]
    );
    assert_eq!(told(&mut db, b""), []);
    assert_eq!(db.text().expect("a text").expect("an event").text(), "3 0 commit 10 => committed 1\n");
}

#[test]
fn texts_that_outgrow_the_buffer() {
    let (mut one, mut other) = (open(), open());
    let value = "v".repeat(60000);
    let mut lines = String::from("0 begin 1\n");
    for i in 0..50 {
        lines += &format!("0 put 1 k{i} {}\n", &value[i * 1000..]);
        if i % 10 == 0 {
            lines += "0 scan 1 - -\n0 fly\n";
        }
    }
    let texts: Vec<_> =
        lines.split_inclusive('\n').map(|line| other.call(line).map(|event| event.text().to_string())).collect();
    assert_eq!(texts.len(), 61);
    assert_eq!(told(&mut one, lines.as_bytes()), texts);
    let scans = "0 scan 1 - -\n".repeat(3);
    let texts: Vec<_> =
        scans.split_inclusive('\n').map(|line| other.call(line).map(|event| event.text().to_string())).collect();
    assert_eq!(told(&mut one, scans.as_bytes()), texts);
}

#[test]
fn an_answer_that_is_too_long() {
    let mut db = open();
    db.begin(0, 10).expect("a call");
    db.put(0, 10, b"a", b"12345").expect("a call");
    let lines = "0 scan 10 - -\n0 get 10 a\n";
    let scan = "2 0 scan 10 - - => rows 1\nrow a 12345\n";
    let told: Vec<_> = db.calls_within(lines, 23).map(|result| result.map(|event| event.text().to_string())).collect();
    assert_eq!(told, [Ok(scan.to_string()), Ok("3 0 get 10 a => value 12345\n".to_string())]);
    let calls = db.calls_within(lines, 22);
    assert_eq!(calls.taken(), lines.len());
    let told: Vec<_> = calls.map(|result| result.map(|event| event.text().to_string())).collect();
    assert_eq!(told, [Err(CallError::AnswerTooLong), Ok("4 0 get 10 a => value 12345\n".to_string())]);
}

#[test]
fn a_scan_of_more_rows_than_are_let_through() {
    let mut db = open();
    db.begin(0, 10).expect("a call");
    for row in 0..=MOST_ROWS {
        db.put(0, 10, format!("k{row:05}").as_bytes(), b"").expect("a call");
    }
    let most = u64::MAX - 1;
    let told = |db: &mut Database, lines: &str, most: u64| -> Vec<_> {
        db.calls_within(lines, most).map(|result| result.map(|event| event.text().lines().count() - 1)).collect()
    };
    let fewer = format!("k{MOST_ROWS:05}");
    let scans = format!("0 scan 10 - {fewer}\n0 scan 10 - -\n");
    assert_eq!(told(&mut db, &scans, most), [Ok(MOST_ROWS), Err(CallError::AnswerTooLong)]);
    assert_eq!(told(&mut db, &scans, u64::MAX), [Ok(MOST_ROWS), Ok(MOST_ROWS + 1)]);
    db.commit(0, 10).expect("a call");
    db.close_to(0, 10).expect("a call");
    let scans = format!("0 scanat 10 - {fewer}\n0 scanat 10 - -\n0 scanat 11 - -\n");
    assert_eq!(told(&mut db, &scans, most), [Ok(MOST_ROWS), Err(CallError::AnswerTooLong), Ok(0)]);
    assert_eq!(told(&mut db, &scans, u64::MAX), [Ok(MOST_ROWS), Ok(MOST_ROWS + 1), Ok(0)]);
}
