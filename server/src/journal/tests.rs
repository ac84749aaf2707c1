//! Cores that keep what they do in a folder, and what is there after a crash: a copy of the folder's files.

use super::checkpoint::Making;
use super::copy::Next;
use super::store::{Kind, Series};
use super::*;
use crate::api::remembered::Remembered;
use crate::core::Core;
use crate::log::{Level, Log};
use crate::seats::{Owner, Session};
use crate::testing::{answers, folder, options, put, say, session, tidy, wait_for, IDENTITY};
use ripsawbean::{Command, Span};
use std::fs;
use std::sync::Arc;
use std::time::{Duration, Instant};

mod bits;
mod copies;
mod disk;
mod ghost;
mod keys;
mod model;
mod rests;
mod series;

const NO_HISTORY: [&str; 2] = ["--history", "0"];

fn asked(place: &Path) -> Asked {
    Asked { place: place.into(), restore: None, is_moved: true, lease: Duration::ZERO, remember: Duration::MAX }
}

fn core_of(asked: &Asked) -> Result<Core, String> {
    let recovered = open(asked, IDENTITY).map_err(|error| error.to_string())?;
    let log = Arc::new(Log::to(Level::Error, false, Box::new(std::io::sink())));
    Ok(Core::recovered(recovered, &options(&NO_HISTORY), log))
}

fn recovered(disk: &disk::Disk, identity: &str) -> Result<Recovered, Error> {
    recovery::recover(Box::new(disk.clone()), Reading::begin(Duration::MAX)?, identity, true)
}

fn core_in(place: &Path) -> Core {
    core_of(&asked(place)).expect("it is there")
}

/// Waits until all is durable.
fn sync(core: &Core) {
    wait_for(core, core.journal.all());
}

/// The folder as a crash leaves it now.
fn crashed(place: &Path) -> PathBuf {
    let copy = folder();
    for entry in fs::read_dir(place).expect("it is there") {
        let name = entry.expect("a name").file_name();
        fs::copy(place.join(&name), copy.join(&name)).expect("it is copied");
    }
    copy
}

fn rows(core: &mut Core, session: &mut Session) -> Vec<String> {
    let told = answers(core, session, "begin\nscan . - -\nabort .\n");
    told[2..told.len() - 1].to_vec()
}

fn journal_of(place: &Path, number: u64) -> PathBuf {
    place.join(format!("{}.script", Series::journal(number)))
}

/// A feed of the server's own, for a consumer's name.
fn follow(core: &mut Core, name: &str) -> u64 {
    let cursor = core.ledger.closed;
    let opened = core.ask(Owner::Server, Command::Open { span: Span::ALL, cursor });
    match opened {
        Ok(crate::outcome::Outcome::Opened { feed, .. }) => {
            core.follow(&name.into(), feed, &crate::shares::Client::SERVER).expect("it is followed")
        }
        other => panic!("{other:?}"),
    }
}

#[test]
fn what_is_durable_is_there_after_a_crash() {
    let place = folder();
    let mut core = core_in(&place);
    let mut one = session(&mut core);
    put(&mut core, &mut one, &[("a", "1"), ("b", "2"), ("a", "3")]);
    say(&mut core, &mut one, "begin\ndel . b\nput . c =>\nput . c %20\ncommit .\nbegin\nput . lost 1\n");
    sync(&core);
    let mut after = core_in(&crashed(&place));
    assert_eq!((after.identity.as_str(), after.ledger.closed > 65_000), (IDENTITY, true));
    assert!(after.ledger.closed >= core.ledger.greatest && after.ledger.undecided.is_empty());
    let mut two = session(&mut after);
    assert_eq!(rows(&mut after, &mut two), ["row a 3", "row c %20"]);
    assert_eq!(answers(&mut after, &mut two, "readat 3 b\nbegin 5\n")[0], "value 2");
    put(&mut after, &mut two, &[("d", "4")]);
    assert_eq!((after.shouts, after.transcript.next() > after.transcript.first), (0, true));
}

#[test]
fn a_clean_end_costs_no_timestamps() {
    let place = folder();
    let mut core = core_in(&place);
    let mut one = session(&mut core);
    put(&mut core, &mut one, &[("a", "1"), ("b", "2")]);
    say(&mut core, &mut one, "begin\n");
    let durable = core.journal.durable();
    let last = core.journal.end(core.ledger.greatest.max(core.ledger.closed));
    wait_for(&core, last);
    assert_eq!(core_in(&crashed(&place)).ledger.closed, 3);
    // What is done afterwards is told to nobody.
    say(&mut core, &mut one, "put . c 1\ncommit .\n");
    assert!(!durable.has(core.journal.all()));
}

#[test]
fn answers_rest_on_what_they_tell_of() {
    let place = folder();
    let mut core = core_in(&place);
    let mut one = session(&mut core);
    put(&mut core, &mut one, &[("a", "1")]);
    sync(&core);
    let mut rests = |core: &mut Core, line: &str| {
        core.journal.begin();
        let told = answers(core, &mut one, line);
        (told[0].clone(), core.journal.needed())
    };
    // As long as the database is held up nothing is known to be durable, so each ticket is seen.
    for line in ["begin", "get . a", "put . b 1", "get . c", "scan . - -", "readat 1 a"] {
        assert_eq!(rests(&mut core, &format!("{line}\n")).1, Ticket::NONE, "{line}");
    }
    let (_, commit) = rests(&mut core, "commit .\n");
    assert!(commit > Ticket::NONE && core.journal.all() == commit);
    core.settle(Instant::now());
    let _ = rests(&mut core, "begin\n");
    for (line, is_on_its_way) in [("get . c", false), ("put . d 1", false), ("stats", true), ("get . b", true)] {
        let rests = rests(&mut core, &format!("{line}\n")).1;
        // By now the batch may be durable: then a read of its key rests on nothing.
        assert!(rests == Ticket::NONE || (is_on_its_way && rests == commit), "{line}");
    }
    assert_eq!(rests(&mut core, "stats\n").1, commit);
}

#[test]
fn no_timestamp_is_above_the_mark() {
    let place = folder();
    let mut core = core_in(&place);
    let mut one = session(&mut core);
    let (mut lines, far) =
        (crate::lines::Lines::new(b"begin 500000\n".to_vec()), Instant::now() + Duration::from_secs(9));
    let turn = lines.turn(&mut core, &mut one, far).expect("there is memory");
    let crate::door::Turn::Until(ticket) = turn else { panic!("{turn:?}") };
    wait_for(&core, ticket);
    assert!(core_in(&crashed(&place)).ledger.closed >= 500_000);
    assert_eq!(lines.turn(&mut core, &mut one, far), Ok(crate::door::Turn::Done));
}

#[test]
fn names_and_generations_outlive_a_crash() {
    let place = folder();
    let mut core = core_in(&place);
    let mut one = session(&mut core);
    put(&mut core, &mut one, &[("a", "1"), ("a", "2"), ("a", "3")]);
    assert_eq!([follow(&mut core, "x"), follow(&mut core, "y"), follow(&mut core, "x")], [1, 2, 3]);
    put(&mut core, &mut one, &[("a", "4"), ("b", "5")]);
    tidy(&mut core);
    assert_eq!(core.ledger.horizon, 3);
    sync(&core);
    let mut after = core_in(&crashed(&place));
    assert_eq!((after.ledger.horizon, after.ledger.protections.len()), (3, 2));
    assert_eq!(after.ledger.limit().0, 3);
    assert_eq!(follow(&mut after, "z"), 4);
    // Those that lag too far are let go as before: two rows are closed above 3, and not five.
    assert!(!after.let_go_names_beyond(crate::lag::Amount { rows: 2, bytes: 1000 }));
    assert_eq!(after.ledger.protections.len(), 3);
    assert!(!after.let_go_names_beyond(crate::lag::Amount { rows: 1, bytes: 1000 }));
    assert_eq!(after.ledger.protections.len(), 1);
    assert_eq!(after.shouts, 0);
}

#[test]
fn cut_at_any_byte_it_is_a_right_beginning() {
    let place = folder();
    let mut core = core_in(&place);
    let mut one = session(&mut core);
    for number in 0..6 {
        put(&mut core, &mut one, &[("count", &number.to_string())]);
        say(&mut core, &mut one, &format!("begin\nput . x {number}\nput . y {number}\ncommit .\n"));
        sync(&core);
    }
    let copy = crashed(&place);
    let bytes = fs::read(journal_of(&copy, 1)).expect("it is there");
    let mut counts = std::collections::BTreeSet::new();
    for cut in (0..bytes.len()).step_by(7) {
        let cut_off = folder();
        fs::write(journal_of(&cut_off, 1), &bytes[..cut]).expect("it is written");
        let mut after = core_in(&cut_off);
        let mut two = session(&mut after);
        let told: Vec<String> = rows(&mut after, &mut two);
        let value =
            |key: &str| told.iter().find_map(|row| row.strip_prefix(&format!("row {key} ")).map(str::to_string));
        assert_eq!(value("x"), value("y"), "half a transaction, cut at {cut}: {told:?}");
        let (count, x) = (value("count"), value("x"));
        assert!(count >= x, "cut at {cut}: {told:?}");
        counts.insert(count);
    }
    assert_eq!(counts.len(), 7);
}

#[test]
fn damage_is_refused_and_nothing_is_changed() {
    let place = folder();
    let mut core = core_in(&place);
    let mut one = session(&mut core);
    put(&mut core, &mut one, &[("a", "1"), ("b", "2")]);
    sync(&core);
    let copy = crashed(&place);
    let file = journal_of(&copy, 1);
    let bytes = fs::read(&file).expect("it is there");
    let mut flipped = bytes.clone();
    let at = bytes.len() - 20;
    flipped[at] ^= 1;
    fs::write(&file, &flipped).expect("it is written");
    let why = core_of(&asked(&copy)).err().expect("it is refused");
    assert!(why.contains("journal-000001.script is damaged at byte ") && why.contains("Nothing was changed"), "{why}");
    assert_eq!(fs::read(&file).expect("it is there"), flipped);
    // A journal that is missing, one that is torn before another, and one of another database.
    fs::write(&file, &bytes).expect("it is written");
    fs::copy(&file, journal_of(&copy, 3)).expect("it is copied");
    assert!(core_of(&asked(&copy)).err().expect("it is refused").contains("journal-000002.script isn't there"));
    let mut other = Vec::new();
    let lines = note::Note::Database("ffffffffffffffff".into()).to_string();
    frame::Chain::new("ffffffffffffffff", Series::journal(2)).add(1, 0, lines.as_bytes(), &mut other);
    fs::write(journal_of(&copy, 2), &other).expect("it is written");
    fs::remove_file(journal_of(&copy, 3)).expect("it is there");
    assert!(core_of(&asked(&copy)).err().expect("it is refused").contains("of database ffffffffffffffff, and not of"));
    fs::write(&file, &bytes[..bytes.len() - 3]).expect("it is written");
    assert!(core_of(&asked(&copy)).err().expect("it is refused").contains("has a torn batch at byte"));
}

#[test]
fn a_line_that_is_answered_otherwise_is_refused() {
    for lines in ["0 begin 7\n0 put 8 a 1\n", "0 commit 7\n", "0 get 7 a\n", "0 begin 7\n0 begin 7\n", "nonsense\n"] {
        let (place, mut bytes) = (folder(), Vec::new());
        let lines = format!("{}{lines}", note::Note::Database(IDENTITY.into()));
        frame::Chain::new(IDENTITY, Series::journal(1)).add(1, 9, lines.as_bytes(), &mut bytes);
        fs::write(journal_of(&place, 1), &bytes).expect("it is written");
        let why = core_of(&asked(&place)).err().expect("it is refused");
        assert!(why.contains("isn't answered as before"), "{why}");
    }
}

#[test]
fn a_folder_that_was_copied_is_refused() {
    let place = folder();
    let mut core = core_in(&place);
    let mut one = session(&mut core);
    put(&mut core, &mut one, &[("a", "1")]);
    sync(&core);
    let copy = crashed(&place);
    let why = core_of(&Asked { is_moved: false, ..asked(&copy) }).err().expect("it is refused");
    let was = place.canonicalize().expect("it is there").display().to_string();
    assert!(why.contains(&was) && why.contains("second life"), "{why}");
    drop(core_of(&asked(&copy)).expect("it was moved"));
    assert!(core_of(&Asked { is_moved: false, ..asked(&crashed(&copy)) }).is_err());
}

/// Switches to a new series, and copies the database into it.
fn checkpoint(core: &mut Core, remembered: &Remembered) {
    let mut making = Making::begin(core, remembered).expect("no other is on its way");
    making.take_draft().expect("it is begun");
    making.write_answers(remembered).expect("they are written");
    loop {
        let next = making.turn(core, Instant::now() + Duration::from_secs(9)).expect("it is held");
        // Closed has to come to where transactions were decided before.
        core.settle(Instant::now() + Duration::from_secs(1));
        making.write(next).expect("it is written");
        if next == Next::Done {
            break;
        }
    }
    wait_for(core, making.rests(core));
    making.finish().expect("it is finished");
    making.end(core);
}

#[test]
fn a_checkpoint_makes_older_journals_superfluous() {
    let place = folder();
    let mut core = core_in(&place);
    let mut one = session(&mut core);
    put(&mut core, &mut one, &[("a", "1"), ("b", "2"), ("a", "3")]);
    follow(&mut core, "x");
    tidy(&mut core);
    put(&mut core, &mut one, &[("a", "4"), ("%00", "-")]);
    say(&mut core, &mut one, "begin\ndel . b\ncommit .\n");
    let before = rows(&mut core, &mut one);
    let none = Remembered::new(Duration::ZERO, std::collections::VecDeque::new());
    checkpoint(&mut core, &none);
    put(&mut core, &mut one, &[("c", "5")]);
    sync(&core);
    let copy = crashed(&place);
    assert!(!journal_of(&copy, 1).exists() && journal_of(&copy, 2).exists());
    let mut after = core_in(&copy);
    let mut two = session(&mut after);
    let told = rows(&mut after, &mut two);
    assert_eq!(told.len(), before.len() + 1);
    assert_eq!(
        answers(&mut after, &mut two, "readat 3 b\nreadat 6 b\nreadat 2 a\n"),
        ["value 2", "none", "belowhorizon 3"]
    );
    assert_eq!((after.ledger.horizon, follow(&mut after, "x")), (3, 2));
    // And again, from a checkpoint on.
    checkpoint(&mut after, &none);
    put(&mut after, &mut two, &[("d", "6")]);
    sync(&after);
    let mut last = core_in(&crashed(&copy));
    let mut three = session(&mut last);
    assert_eq!(rows(&mut last, &mut three).len(), told.len() + 1);
    assert_eq!((after.shouts, last.shouts), (0, 0));
}

#[test]
fn a_checkpoint_that_was_not_finished_leaves_all_as_it_is() {
    let place = folder();
    let mut core = core_in(&place);
    let mut one = session(&mut core);
    put(&mut core, &mut one, &[("a", "1")]);
    let head = core.journal_head();
    let (_, drafts) = core.journal.switch(head).expect("no other is on its way");
    let mut draft = drafts.recv().expect("the thread lives").expect("it is begun");
    draft.write(b"half of it").expect("it is written");
    put(&mut core, &mut one, &[("b", "2")]);
    sync(&core);
    let copy = crashed(&place);
    // The journal that was begun may have nothing yet.
    let empty = crashed(&place);
    fs::write(journal_of(&empty, 2), b"0 readat").expect("it is written");
    for (place, wanted) in [(copy, 2), (empty, 1)] {
        let mut after = core_in(&place);
        let mut two = session(&mut after);
        assert_eq!(rows(&mut after, &mut two).len(), wanted);
        put(&mut after, &mut two, &[("c", "3")]);
        sync(&after);
        let mut last = core_in(&crashed(&place));
        let mut three = session(&mut last);
        assert_eq!(rows(&mut last, &mut three).len(), wanted + 1);
        let name = format!("{}.script.new", Series { kind: Kind::Checkpoint, number: 2 });
        assert!(!place.join(name).exists());
    }
}

#[test]
fn a_dump_begins_a_new_database() {
    let place = folder();
    let mut core = core_in(&place);
    let mut one = session(&mut core);
    put(&mut core, &mut one, &[("a", "1"), ("b", "2"), ("a", "3")]);
    follow(&mut core, "x");
    let closed = core.ledger.closed;
    let mut copy = copy::Copy::begin(&mut core, DUMP, closed).expect("it begins");
    assert_eq!(copy.turn(&mut core, Instant::now() + Duration::from_secs(9)), Ok(Next::Done));
    let dump = copy.take();
    copy.end(&mut core);
    let file = crate::testing::file(&dump);
    let place = folder();
    let restoring = Asked { restore: Some(file), ..asked(&place) };
    let recovered = open(&restoring, "fedcba9876543210").map_err(|error| error.to_string()).expect("it is restored");
    let log = Arc::new(Log::to(Level::Error, false, Box::new(std::io::sink())));
    let mut after = Core::recovered(recovered, &options(&NO_HISTORY), log);
    let mut two = session(&mut after);
    assert_eq!((rows(&mut after, &mut two).len(), after.identity.as_str()), (2, "fedcba9876543210"));
    assert_eq!(answers(&mut after, &mut two, "readat 1 a\n"), ["value 1"]);
    assert_eq!((follow(&mut after, "x"), after.ledger.closed), (1, 3));
    let again = core_of(&restoring).err().expect("it is refused");
    assert!(again.contains("is another server's"), "{again}");
    sync(&after);
    let copied = Asked { restore: restoring.restore.clone(), ..asked(&crashed(&place)) };
    let again = core_of(&copied).err().expect("it is refused");
    assert!(again.contains("--restore needs an empty place"), "{again}");
    for (bytes, why) in [(&dump[..dump.len() - 9], "isn't whole"), (&dump[10..], "is damaged at byte 0")] {
        let half = Asked { restore: Some(crate::testing::file(bytes)), ..asked(&folder()) };
        let told = core_of(&half).err().expect("it is refused");
        assert!(told.contains(why), "{told}");
    }
}

#[test]
fn lines_that_are_overwritten_are_not_kept() {
    let place = folder();
    let mut core = core_in(&place);
    let mut one = session(&mut core);
    let value = "v".repeat(1000);
    let lines: String = (0..2000).map(|number| format!("put . k{} {value}{number}\n", number % 3)).collect();
    say(&mut core, &mut one, &format!("begin\n{lines}commit .\n"));
    sync(&core);
    let length = fs::metadata(journal_of(&place, 1)).expect("it is there").len();
    assert!(length < 200_000, "{length}");
    let mut after = core_in(&crashed(&place));
    let mut two = session(&mut after);
    let told = rows(&mut after, &mut two);
    let last: Vec<&str> = told.iter().map(|row| row.rsplit('v').next().expect("a number")).collect();
    assert_eq!(last, ["1998", "1999", "1997"]);
}

#[test]
fn a_long_transaction_is_there_whole_or_not_at_all() {
    let place = folder();
    let mut core = core_in(&place);
    let mut one = session(&mut core);
    put(&mut core, &mut one, &[("a", "1")]);
    sync(&core);
    let before = fs::metadata(journal_of(&place, 1)).expect("it is there").len() as usize;
    let value = "v".repeat(60_000);
    let lines: String = (0..40).map(|number| format!("put . k{number:02} {value}\n")).collect();
    say(&mut core, &mut one, &format!("begin\n{lines}commit .\n"));
    sync(&core);
    let copy = crashed(&place);
    let bytes = fs::read(journal_of(&copy, 1)).expect("it is there");
    for (length, wanted) in [(before + 100_000, 1), (bytes.len() - 1, 1), (bytes.len(), 41)] {
        let cut_off = folder();
        fs::write(journal_of(&cut_off, 1), &bytes[..length]).expect("it is written");
        let mut after = core_in(&cut_off);
        let mut two = session(&mut after);
        let told = rows(&mut after, &mut two);
        assert_eq!(told.len(), wanted, "of {length} bytes");
        assert!(told[1..].iter().all(|row| row.ends_with(&value)));
    }
}
