//! Requests with keys over a crash: what was answered is answered again, and nothing is done twice.

use super::*;
use crate::api::plan::Plan;
use crate::api::remembered::{Asked, Begun, Keep};
use crate::api::run::{Committed, End, Pace};
use crate::shares;
use crate::testing::run;
use std::collections::VecDeque;

const HOUR: Duration = Duration::from_secs(3600);

/// A core in a folder, with the answers that it still knows.
fn keyed_in(place: &Path) -> (Core, Remembered) {
    let mut recovered = open(&asked(place), IDENTITY).map_err(|error| error.to_string()).expect("it is there");
    let remembered = Remembered::new(HOUR, std::mem::take(&mut recovered.answers));
    let log = Arc::new(Log::to(Level::Error, false, Box::new(std::io::sink())));
    (Core::recovered(recovered, &options(&NO_HISTORY), log), remembered)
}

/// How a commit is told: at which timestamp, and how long it is.
pub fn form_of(committed: &Committed<'_>) -> Form {
    let text = format!("{} {}", committed.timestamp, "x".repeat(committed.results.len() * 200));
    Form::Text(text.into())
}

/// A request with a key: whether it was done, and what it is answered.
async fn ask(core: &mut Core, remembered: &Remembered, key: &str, body: &str) -> (bool, Form) {
    let plan = Plan::of(body.as_bytes()).expect(body);
    let mut asked = Asked::new(&shares::Client::SERVER, "", key, &[body.as_bytes()]);
    let running = match remembered.begin(&mut asked, Instant::now()).await.expect("there is room") {
        Begun::Told(answer) => return (false, answer.form().clone()),
        Begun::Runs(running) => running,
    };
    while let Err(ticket) = core.journal.cover(core.ledger.next_timestamp()) {
        wait_for(core, ticket);
    }
    let end = run(core, &plan, Pace::Whole, Some(&Keep { running: &running, form_of: &form_of }));
    core.settle(Instant::now());
    match end.expect("it is done") {
        End::Committed(committed) => (true, committed.form.expect("it has a key")),
        End::Failed(failed) => panic!("{failed:?}"),
    }
}

fn count(core: &mut Core) -> u64 {
    core.ledger.rows.total.rows
}

fn raise(number: usize) -> String {
    format!(r#"{{"then":[{{"put":"k{number}","value":"1"}},{{"get":"k0"}},{{"put":"n","value":"{number}"}}]}}"#)
}

#[tokio::test]
async fn a_repeat_behind_a_crash_has_its_answer() {
    let place = folder();
    let (mut core, remembered) = keyed_in(&place);
    let mut told = Vec::new();
    for number in 0..4 {
        told.push(ask(&mut core, &remembered, &format!("key{number}"), &raise(number)).await.1);
    }
    sync(&core);
    for _ in 0..2 {
        let (mut after, remembered) = keyed_in(&crashed(&place));
        let rows = count(&mut after);
        for (number, told) in told[..4].iter().enumerate() {
            let again = ask(&mut after, &remembered, &format!("key{number}"), &raise(number)).await;
            assert_eq!(again, (false, told.clone()));
        }
        assert_eq!((count(&mut after), after.shouts), (rows, 0));
        let mut other = Asked::new(&shares::Client::SERVER, "", "key1", &[b"other"]);
        assert!(remembered.begin(&mut other, Instant::now()).await.is_err());
        assert!(ask(&mut after, &remembered, "new", &raise(9)).await.0);
    }
}

/// Wherever a crash cuts the journal, a key is there exactly where the rows of its commit are.
#[tokio::test]
async fn a_key_is_there_where_its_commit_is() {
    let place = folder();
    let (mut core, remembered) = keyed_in(&place);
    for number in 0..6 {
        ask(&mut core, &remembered, &format!("key{number}"), &raise(number)).await;
        if number % 2 == 0 {
            sync(&core);
        }
    }
    sync(&core);
    let bytes = fs::read(journal_of(&place, 1)).expect("it is there");
    let mut seen = std::collections::BTreeSet::new();
    for cut in (0..bytes.len()).step_by(11).chain([bytes.len()]) {
        let cut_off = folder();
        fs::write(journal_of(&cut_off, 1), &bytes[..cut]).expect("it is written");
        let (mut after, remembered) = keyed_in(&cut_off);
        let (kept, rows) = (remembered.count(), count(&mut after));
        assert_eq!(rows, 2 * kept, "cut at {cut}");
        for number in 0..6 {
            let is_done = ask(&mut after, &remembered, &format!("key{number}"), &raise(number)).await.0;
            assert_eq!(is_done, number as u64 >= kept, "key{number}, cut at {cut}");
        }
        assert_eq!(count(&mut after), 12, "cut at {cut}");
        seen.insert(kept);
        fs::remove_dir_all(&cut_off).expect("it is there");
    }
    assert!(seen.len() > 3 && seen.contains(&0) && seen.contains(&6), "{seen:?}");
}

#[tokio::test]
async fn a_checkpoint_carries_keys() {
    let place = folder();
    let (mut core, remembered) = keyed_in(&place);
    let first = ask(&mut core, &remembered, "first", &raise(1)).await.1;
    checkpoint(&mut core, &remembered);
    let second = ask(&mut core, &remembered, "second", &raise(2)).await.1;
    sync(&core);
    let copy = crashed(&place);
    assert!(!journal_of(&copy, 1).exists());
    let (mut after, remembered) = keyed_in(&copy);
    for (key, number, told) in [("first", 1, &first), ("second", 2, &second)] {
        assert_eq!(ask(&mut after, &remembered, key, &raise(number)).await, (false, told.clone()));
    }
    // Those whose time is over aren't carried further.
    let none = Remembered::new(Duration::ZERO, VecDeque::new());
    checkpoint(&mut after, &none);
    sync(&after);
    let (mut last, remembered) = keyed_in(&crashed(&copy));
    assert!(ask(&mut last, &remembered, "first", &raise(1)).await.0);
}

/// The control: without its record a key's request is done again behind a crash.
#[tokio::test]
async fn without_its_record_a_request_is_done_twice() {
    let place = folder();
    let (mut core, remembered) = keyed_in(&place);
    ask(&mut core, &remembered, "k", &raise(1)).await;
    sync(&core);
    let copy = crashed(&place);
    let bytes = fs::read(journal_of(&copy, 1)).expect("it is there");
    let (mut batches, mut out) = (frame::Batches::new(bytes.as_slice(), Series::journal(1)), Vec::new());
    let mut chain = frame::Chain::new(IDENTITY, Series::journal(1));
    while let Ok(Some(batch)) = batches.next() {
        let lines = batch.lines.split_inclusive(|&byte| byte == b'\n');
        let others =
            lines.filter(|line| !matches!(note::Note::of(line), Some(note::Note::Key(_) | note::Note::Told(_))));
        chain.add(batch.number, batch.mark, &others.collect::<Vec<_>>().concat(), &mut out);
    }
    assert!(out.len() < bytes.len());
    fs::write(journal_of(&copy, 1), &out).expect("it is written");
    let (mut after, remembered) = keyed_in(&copy);
    let rows = count(&mut after);
    assert!(ask(&mut after, &remembered, "k", &raise(1)).await.0);
    assert_eq!(count(&mut after), rows + 2);
}
