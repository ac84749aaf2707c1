//! The wrapper where the library runs out of memory, over a library whose growths can be refused: `embed/test` runs this.

use ripsawbean::refusing::{refuse_after, refuse_none};
use ripsawbean::{
    CallError, CommandError, Database, DumpError, DumpPlace, Held, Message, NoMemory, OpenError, Refusal, Told,
    Unwritten, VersionError,
};

#[test]
fn each_growth_is_refused_in_turn() {
    refuse_after(0);
    assert_eq!(Database::open(1024).err(), Some(OpenError::NoMemory));
    assert!(refuse_none());

    let long = format!("0 put 1 a%00 {}\n", "v".repeat(5000));
    let lines = [
        "0 begin 1\n",
        &long,
        "0 get 1 a%00\n",
        "0 scan 1 - -\n",
        "0 commit 1\n",
        "0 close 1\n",
        "0 open - - 0\n",
        "0 poll 1 9\n",
    ];
    let (mut without_call, mut without_text, mut answered) = (0, 0, 0);
    for before in 0.. {
        let mut any = false;
        let mut db = Database::open(1024).expect("it opens");
        let mut position = 0;
        for line in lines {
            refuse_after(before);
            let told = db.call(line).map(|event| event.text().to_string());
            any |= refuse_none();
            let mut text = match told {
                Ok(text) => text,
                Err(CallError::NoMemory) => {
                    // No call was made, and it may be made again.
                    without_call += 1;
                    db.call(line).expect("a call").text().to_string()
                }
                Err(CallError::Unwritten) => {
                    // The call was made; its text can be asked for.
                    without_text += 1;
                    refuse_after(0);
                    assert_eq!(db.text().err(), Some(Unwritten));
                    assert!(refuse_none());
                    db.text().expect("a text").expect("an event").text().to_string()
                }
                Err(other) => panic!("{other}"),
            };
            let begins = |position: u64| format!("{position} {} => ", line.trim_end());
            if text == format!("{}nomemory\n", begins(position)) {
                answered += 1;
                position += 1;
                text = db.call(line).expect("a call").text().to_string();
            }
            assert!(text.starts_with(&begins(position)), "{text}");
            assert_eq!(db.text().expect("a text").expect("an event").text(), text);
            position += 1;
        }
        let last = db.text().expect("a text").expect("an event");
        assert!(matches!(last.messages().collect::<Vec<_>>().as_slice(), [Message::Row(_), Message::Resolved(1)]));
        if !any {
            break;
        }
    }
    assert!(without_call > 0 && without_text > 0 && answered > 0, "{without_call} {without_text} {answered}");
    typed_calls();
    lines_at_once(&lines);
    looks();
    dumps();
}

/// What is told without a call, with each growth refused in turn.
fn looks() {
    let mut db = Database::open(1024).expect("it opens");
    let key = [b'k'; 30];
    db.begin(0, 1).expect("a call");
    db.put(0, 1, &key, b"1").expect("a call");
    db.commit(0, 1).expect("a call");
    db.call("0 open - - 1\n").expect("a call");
    let (mut versions, mut without) = (Vec::new(), 0);
    refuse_after(0);
    assert_eq!(db.versions_at(1, &[b"a", &key], &mut versions), Err(VersionError::NoMemory));
    assert!(refuse_none());
    assert_eq!(versions, [None]);
    assert_eq!(db.versions_at(1, &[b"a", &key], &mut versions), Ok(()));
    assert_eq!(versions, [None, Some(1)]);
    for before in 0.. {
        refuse_after(before);
        let told = db.held_by(0);
        let any = refuse_none();
        match told {
            Err(NoMemory) => without += 1,
            Ok(held) => assert_eq!(held, [Held::Feed { number: 1, floor: 1 }]),
        }
        if !any {
            break;
        }
    }
    assert!(without > 0);
}

/// A dump, with each growth refused in turn.
fn dumps() {
    let mut db = Database::open(1024).expect("it opens");
    db.begin(0, 1).expect("a call");
    db.put(0, 1, &[b'k'; 30], &[b'v'; 30]).expect("a call");
    db.delete(0, 1, b"a").expect("a call");
    db.commit(0, 1).expect("a call");
    let (mut whole, mut out, mut without) = (Vec::new(), [0; 999], 0);
    db.dump(0, &mut whole).expect("it is written");
    for before in 0.. {
        let mut place = DumpPlace::start();
        refuse_after(before);
        let told = db.dump_piece(0, u64::MAX, &mut place, &mut out);
        let any = refuse_none();
        match told {
            Ok(length) => assert_eq!((&out[..length], place.has_ended()), (whole.as_slice(), true)),
            Err(error) => {
                assert_eq!((error, place), (DumpError::NoMemory, DumpPlace::start()));
                without += 1;
            }
        }
        if !any {
            break;
        }
    }
    assert!(without > 0);
}

/// Makes a call until it is made, with its growth behind `before` others refused at first. Whether one was.
fn until_made(
    db: &mut Database,
    before: u64,
    mut call: impl FnMut(&mut Database) -> Result<Vec<u8>, CommandError>,
) -> (Result<Vec<u8>, CommandError>, bool) {
    refuse_after(before);
    let mut told = call(db);
    let any = refuse_none();
    if matches!(told, Err(CommandError::Call(CallError::NoMemory) | CommandError::Refused(Refusal::NoMemory))) {
        assert!(any);
        told = call(db);
    }
    (told, any)
}

fn typed_calls() {
    let (key, value) = ([b'k'; 30], [b'v'; 5000]);
    let mut without_bytes = 0;
    for before in 0.. {
        let mut db = Database::open(1024).expect("it opens");
        let mut any = false;
        let mut made = |db: &mut Database, call: &mut dyn FnMut(&mut Database) -> Result<Vec<u8>, CommandError>| {
            let (told, was_refused) = until_made(db, before, call);
            any |= was_refused;
            told
        };
        made(&mut db, &mut |db| db.begin(0, 1).map(|()| Vec::new())).expect("a call");
        made(&mut db, &mut |db| db.put(0, 1, &key, &value).map(|()| Vec::new())).expect("a call");
        let found = made(&mut db, &mut |db| Ok(db.get(0, 1, &key)?.expect("a value").to_vec()));
        assert_eq!(found, Ok(value.to_vec()));
        made(&mut db, &mut |db| db.commit(0, 1).map(|_| Vec::new())).expect("a call");
        made(&mut db, &mut |db| db.close_to(0, 1).map(|_| Vec::new())).expect("a call");
        db.call("0 open - - 0\n").expect("a call");
        let polled = made(&mut db, &mut |db| db.poll(0, 1, 9).map(|told| vec![told.count() as u8]));
        if polled == Err(CommandError::Call(CallError::Unwritten)) {
            // The poll was made; its messages can be asked for.
            without_bytes += 1;
            refuse_after(0);
            assert_eq!(db.bytes().err(), Some(Unwritten));
            assert!(refuse_none());
        } else {
            assert_eq!(polled, Ok(vec![2]));
        }
        let told: Vec<_> = Told::of(db.bytes().expect("bytes")).collect();
        assert!(matches!(told.as_slice(), [Message::Row(row), Message::Resolved(1)] if row.key == key), "{told:?}");
        if !any {
            break;
        }
    }
    assert!(without_bytes > 0);
}

fn lines_at_once(lines: &[&str]) {
    let all = lines.concat();
    for before in 0.. {
        let mut db = Database::open(1024).expect("it opens");
        let (mut position, mut from, mut line, mut any) = (0, 0, 0, false);
        while line < lines.len() {
            refuse_after(if any { u64::from(u32::MAX) } else { before });
            let calls = db.calls(&all[from..]);
            any |= refuse_none();
            from += calls.taken();
            let told: Vec<_> = calls.map(|result| result.map(|event| event.text().to_string())).collect();
            let count = told.len();
            for (i, result) in told.into_iter().enumerate() {
                let text = match result {
                    Ok(text) => text,
                    Err(CallError::NoMemory) if i + 1 == count => break,
                    Err(CallError::Unwritten) if i + 1 == count => {
                        db.text().expect("a text").expect("an event").text().to_string()
                    }
                    Err(other) => panic!("{other}"),
                };
                assert!(text.starts_with(&format!("{position} {} => ", lines[line].trim_end())), "{text}");
                position += 1;
                line += 1;
            }
        }
        assert_eq!(from, all.len());
        if !any {
            break;
        }
    }
}
