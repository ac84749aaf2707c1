//! What rests on a batch that isn't durable, where the journal's thread is moved by hand.

use super::disk::Disk;
use super::*;
use crate::api::plan::Plan;
use crate::api::run::{run, End, Pace, Stop};
use crate::door::Turn;
use crate::gate::Who;
use crate::journal::writer::by_hand;
use crate::lines::Lines;
use crate::testing::{ask, server_of};

/// A life over a disk, whose marks are far above all that is said.
fn life(disk: &Disk) -> Core {
    let recovered = recovered(disk, IDENTITY).map_err(|error| error.to_string());
    let log = Arc::new(Log::to(Level::Error, false, Box::new(std::io::sink())));
    let options = options(&["--history", "0", "--max-age", "3600"]);
    let mut core = Core::recovered(recovered.expect("it begins"), &options, log);
    let _ = core.journal.cover(core.ledger.closed + (1 << 20));
    by_hand::take();
    by_hand::finish().expect("it is written");
    core
}

/// The answers of lines, and what they rest on.
fn told(core: &mut Core, session: &mut Session, text: &str) -> (Vec<String>, Ticket) {
    let mut lines = Lines::new(text.as_bytes().to_vec());
    assert_eq!(lines.turn(core, session, Instant::now() + Duration::from_secs(60)), Ok(Turn::Done));
    let text = String::from_utf8(lines.answers).expect("text");
    let answer = |line: &str| line.rsplit_once(" => ").map_or(line, |(_, answer)| answer).to_string();
    (text.lines().map(answer).collect(), lines.rests)
}

#[test]
fn behind_the_end_a_read_is_told_no_earlier_than_its_commit() {
    by_hand::hold();
    let disk = Disk::default();
    let mut core = life(&disk);
    let mut all: Vec<Session> = (0..4).map(|_| session(&mut core)).collect();
    for (at, lines) in ["begin\nput . c 1\n", "begin\nput . a 1\n", "begin\nput . b 1\n", "begin\n"].iter().enumerate()
    {
        let _ = told(&mut core, &mut all[at], lines);
    }
    // One commit is on its way, one gathers, and one comes behind the end.
    let _ = told(&mut core, &mut all[1], "commit .\n");
    assert!(by_hand::take());
    let _ = told(&mut core, &mut all[0], "commit .\n");
    let last = core.journal.end(core.ledger.greatest.max(core.ledger.closed));
    let (_, never) = told(&mut core, &mut all[2], "commit .\n");
    assert!(never == Ticket::NEVER && last < never);
    let (answer, rests) = told(&mut core, &mut all[3], "get . a\n");
    let mut after = life(&Disk::of(disk.all()));
    let mut one = session(&mut after);
    assert_eq!((answer, rows(&mut after, &mut one)), (vec!["value 1".to_string()], Vec::new()));
    assert!(!core.journal.durable().has(rests));
}

#[test]
fn what_blocks_a_scan_is_told_no_earlier_than_commits_before_it() {
    by_hand::hold();
    let mut core = life(&Disk::default());
    let mut all: Vec<Session> = (0..4).map(|_| session(&mut core)).collect();
    for (at, lines) in
        ["begin 1\nput . a 1\n", "begin 2\nput . a 2\n", "begin 3\nput . b 3\n", "begin 4\n"].iter().enumerate()
    {
        let _ = told(&mut core, &mut all[at], lines);
    }
    let (_, commit) = told(&mut core, &mut all[1], "commit .\n");
    let (answer, rests) = told(&mut core, &mut all[3], "scan . - -\n");
    // Had the commit been lost, 1 would block it.
    assert_eq!((answer, rests), (vec!["blocked 3".to_string()], commit));
    assert!(!core.journal.durable().has(commit));
}

#[test]
fn a_request_above_the_mark_begins_once_that_is_durable() {
    by_hand::hold();
    let mut core = life(&Disk::default());
    let plan = Plan::of(br#"{"then":[{"put":"a","value":"1"}]}"#).expect("a plan");
    let mut one = session(&mut core);
    // It is the mark that is durable.
    let (mark, far) = ((1 << 20) + (1 << 16), "1000000000");
    core.limits = crate::lines::Limits::of(&options(&["--ahead", far]));
    assert_eq!(told(&mut core, &mut one, &format!("begin {mark}\nabort .\n")).0, ["started", "aborted"]);
    let asked = |core: &mut Core| run(core, &plan, Pace::Short, None);
    let Err(Stop::Until(ticket)) = asked(&mut core) else { panic!("its timestamp is above the mark") };
    assert_eq!((core.ledger.greatest, core.ledger.undecided.len()), (mark, 0));
    by_hand::take();
    by_hand::finish().expect("it is written");
    assert!(core.journal.durable().has(ticket) && matches!(asked(&mut core), Ok(End::Committed(_))));
    let _ = core.journal.end(core.ledger.greatest);
    assert!(matches!(asked(&mut core), Err(Stop::Until(Ticket::NEVER))));
}

/// What a request is told, and whether it waits.
async fn waits(server: &Arc<crate::routes::Server>, line: &str, body: &str) -> (u16, bool) {
    let (status, rests) = match ask(server, &Who::anyone(), line, &[], body).await {
        Ok(response) => (response.status, response.rests),
        Err(refusal) => (refusal.status, refusal.rests),
    };
    let rests = rests.unwrap_or_else(|| server.door.all());
    (status, server.door.run(|core| !core.journal.durable().has(rests)))
}

#[tokio::test]
async fn an_answer_waits_for_its_own_commit_or_for_those_of_the_keys_that_it_has_read() {
    by_hand::hold();
    let server = server_of(life(&Disk::default()), &[]);
    for line in ["PUT /key/quiet", "PUT /key/gone"] {
        assert_eq!(waits(&server, line, "1").await, (200, true));
    }
    by_hand::take();
    by_hand::finish().expect("it is written");
    for (line, body, told) in [
        ("PUT /key/fresh", "1", (200, true)),
        ("DELETE /key/gone", "", (200, true)),
        ("GET /key/fresh", "", (200, true)),
        ("GET /key/quiet", "", (200, false)),
        ("GET /key/quiet?at=2", "", (200, false)),
        ("GET /key/gone", "", (404, true)),
        ("GET /key/none", "", (404, false)),
        ("DELETE /key/none", "", (404, false)),
        ("GET /rows?lo=q", "", (200, true)),
        ("POST /transact", r#"{"then":[{"get":"quiet"},{"get":"none"}]}"#, (200, false)),
        ("POST /transact", r#"{"then":[{"get":"quiet"},{"get":"fresh"}]}"#, (200, true)),
        ("POST /transact", r#"{"then":[{"scan":["q",null]}]}"#, (200, true)),
        ("POST /transact", r#"{"if":[{"key":"quiet","value":"2"}],"then":[]}"#, (409, false)),
        ("POST /transact", r#"{"if":[{"key":"fresh","value":"2"}],"then":[]}"#, (409, true)),
        ("GET /consumer/none", "", (200, true)),
        ("GET /nothing", "", (404, false)),
        ("DELETE /healthz", "", (405, false)),
        ("GET /healthz", "", (200, false)),
        ("GET /page/examples", "", (200, false)),
    ] {
        assert_eq!(waits(&server, line, body).await, told, "{line} {body}");
    }
    by_hand::take();
    by_hand::finish().expect("it is written");
    for line in ["GET /key/fresh", "GET /key/gone", "GET /rows", "GET /consumer/none"] {
        assert!(!waits(&server, line, "").await.1, "{line}");
    }
}
