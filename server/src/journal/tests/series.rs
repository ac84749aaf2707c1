//! Series that aren't whole: what no crash leaves is refused, and nothing is changed.

use super::*;

/// Why a server doesn't start on a folder.
fn refused(place: &Path) -> String {
    match core_of(&asked(place)) {
        Err(why) => why,
        Ok(mut core) => {
            let mut one = session(&mut core);
            panic!("it starts, and has {:?}", rows(&mut core, &mut one));
        }
    }
}

fn put_durably(core: &mut Core, session: &mut Session, key: &str) {
    put(core, session, &[(key, "1")]);
    sync(core);
}

#[test]
fn a_checkpoint_without_its_journal_is_refused_also_where_an_older_one_is_left() {
    let place = folder();
    let mut core = core_in(&place);
    let mut one = session(&mut core);
    put_durably(&mut core, &mut one, "a");
    let older = fs::read(journal_of(&place, 1)).expect("it is there");
    checkpoint(&mut core, &Remembered::new(Duration::ZERO, std::collections::VecDeque::new()));
    put_durably(&mut core, &mut one, "b");
    let copy = crashed(&place);
    fs::remove_file(journal_of(&copy, 2)).expect("it is there");
    for older in [None, Some(older)] {
        older.into_iter().for_each(|bytes| fs::write(journal_of(&copy, 1), bytes).expect("it is written"));
        assert!(refused(&copy).contains("journal-000002.script isn't there"));
    }
    assert!(journal_of(&copy, 1).exists());
}

#[test]
fn a_series_that_lost_whole_batches_is_refused_where_another_follows() {
    let place = folder();
    let mut core = core_in(&place);
    let mut one = session(&mut core);
    put_durably(&mut core, &mut one, "a");
    let before = fs::metadata(journal_of(&place, 1)).expect("it is there").len();
    put_durably(&mut core, &mut one, "b");
    // A checkpoint begins, and isn't finished.
    let head = core.journal_head();
    let (_, drafts) = core.journal.switch(head).expect("no other is on its way");
    drop(drafts.recv().expect("the thread lives").expect("it is begun"));
    put_durably(&mut core, &mut one, "c");
    let copy = crashed(&place);
    let mut whole = core_in(&crashed(&copy));
    let mut two = session(&mut whole);
    assert_eq!(rows(&mut whole, &mut two).len(), 3);
    for length in [before, 0] {
        let file = fs::OpenOptions::new().write(true).open(journal_of(&copy, 1)).expect("it is there");
        file.set_len(length).expect("it is cut");
        assert!(
            refused(&copy).contains(&format!("journal-000001.script isn't whole: what has to stand at byte {length}"))
        );
    }
}

#[test]
fn a_restore_that_was_cut_says_what_helps() {
    let place = folder();
    let mut core = core_in(&place);
    let closed = core.ledger.closed;
    let mut copy = copy::Copy::begin(&mut core, DUMP, closed).expect("it begins");
    assert_eq!(copy.turn(&mut core, Instant::now() + Duration::from_secs(9)), Ok(Next::Done));
    let (dump, place) = (crate::testing::file(&copy.take()), folder());
    let restoring = |place: &Path| Asked { restore: Some(dump.clone()), ..asked(place) };
    let restored = core_of(&restoring(&place)).expect("it is restored");
    sync(&restored);
    let half = crashed(&place);
    fs::remove_file(journal_of(&half, 1)).expect("it is there");
    for why in [refused(&half), core_of(&restoring(&half)).err().expect("it is refused")] {
        assert!(why.contains("checkpoint-000001.script is all that") && why.contains("empty that place"), "{why}");
    }
    // What is cut before has left nothing that counts.
    let cut = folder();
    fs::write(cut.join("checkpoint-000001.script.new"), b"half").expect("it is written");
    assert!(core_of(&restoring(&cut)).is_ok());
}
