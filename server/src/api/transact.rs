//! `POST /transact`: one transaction in one request, all or nothing.
//!
//! ```text
//! {"if":[{"key":"n","version":"7"}],"then":[{"put":"n","value":"4"}]}
//! 200 {"timestamp":"9","branch":"then","written":1,"results":[null]}
//! 409 {"error":"condition",..,"timestamp":"9","found":[{"if":0,"key":"n","value":"3","version":"8"}]}
//! ```
//!
//! `plan` reads it, and `run` runs it: in turns, where it may be long. While a session's undecided write blocks it, it
//! waits for that one's decision, and is run anew.
//!
//! 1. It takes no seat.
//! 2. Its answer is remembered under the lock of its commit, so no answer of a commit is forgotten.
//! 3. A plan in turns keeps the lane from its first turn to its last one. So one is undecided between two turns at most.
//! 4. Who goes away meanwhile leaves nothing undecided.

use super::bytes::{tell, told, Spelling};
use super::plan::Plan;
use super::remembered::{Asked, Begun, Keep};
use super::run::{Branch, Committed, End, Failed, Pace, Row, Running, Stop, Told};
use super::{body_of, spelling_in, wait_in, Answer};
use crate::core::Core;
use crate::door::{Length, Permit};
use crate::http::{Request, Response};
use crate::journal::Form;
use crate::query::arguments;
use crate::refusal::Refusal;
use crate::routes::Server;
use crate::session::place_of_answer;
use crate::shares::Held;
use serde_json::{json, Value};
use sha2::{Digest, Sha256};
use std::io::Write;
use std::sync::Arc;
use std::time::Instant;

pub async fn transact(server: &Arc<Server>, mut request: Request) -> Result<Response, Refusal> {
    let body = body_of(server, &mut request, server.options.max_message).await?;
    let start = Instant::now();
    let given = arguments(&request.path, &request.query, &["wait", "bytes"])?;
    let (wait, spelling) = (wait_in(&given)?, spelling_in(&given)?);
    let permit = server.door.permit(&request.client, body.len()).await;
    let mut asked = server.remembered.asked(&request, &body, permit)?;
    let plan = Plan::of(&body)?;
    plan.check(&request.who)?;
    let place = plan.answers_at_length().then(|| place_of_answer(server, &request.client)).transpose()?;
    let form_of = |committed: &Committed<'_>| Form::Text(text_of(committed, spelling).into());
    let refused = |failed: Failed<'_>| refusal_of(&failed, spelling);
    let unread = place.as_ref().map(|place| &place.unread);
    let answered = answer_once(server, &mut asked, &plan, start + wait, &form_of, refused, unread).await;
    server.metrics.transactions.note(start.elapsed());
    Ok(answered?.into_response(place))
}

/// Runs a plan, or gives the answer that its key had before.
pub async fn answer_once(
    server: &Server,
    asked: &mut Asked,
    plan: &Plan<'_>,
    until: Instant,
    form_of: &(dyn Fn(&Committed<'_>) -> Form + Sync),
    refused: impl Fn(Failed<'_>) -> Refusal,
    unread: Option<&Held>,
) -> Result<Answer, Refusal> {
    let running = match server.remembered.begin(asked, until).await? {
        Begun::Told(answer) => return Ok(answer),
        Begun::Runs(running) => running,
    };
    match run_until(server, &mut asked.permit, plan, until, Some(&Keep { running: &running, form_of }), unread).await? {
        End::Committed(mut committed) => {
            let form = committed.form.take().unwrap_or_else(|| form_of(&committed));
            Ok(Answer::new(committed.timestamp, form, committed.rests))
        }
        End::Failed(failed) => {
            let rests = failed.rests;
            Err(refused(failed).resting_on(rests))
        }
    }
}

/// Runs a plan, anew as long as it is blocked, until then. Where its answer may be long it says what counts it.
pub async fn run_until<'p>(
    server: &Server,
    permit: &mut Permit,
    plan: &'p Plan<'_>,
    until: Instant,
    keep: Option<&Keep<'_>>,
    unread: Option<&Held>,
) -> Result<End<'p>, Refusal> {
    let mut pace = match plan.length() {
        Length::Short => Pace::Short,
        Length::Long => Pace::Turns,
    };
    loop {
        match run_once(server, permit, plan, pace, keep, unread).await {
            Ok(end) => return Ok(end),
            Err(Stop::Long) => pace = Pace::Turns,
            Err(Stop::Overtaken) => pace = Pace::Whole,
            Err(Stop::Until(ticket)) => server.door.until(ticket).await,
            Err(Stop::Blocked(by, mut decision)) => {
                if tokio::time::timeout_at(until.into(), decision.changed()).await.is_err() {
                    return Err(Stop::Blocked(by, decision).refusal());
                }
            }
            Err(stop) => return Err(stop.refusal()),
        }
    }
}

/// Runs a plan once, in the lane where it isn't short.
async fn run_once<'p>(
    server: &Server,
    permit: &mut Permit,
    plan: &'p Plan<'_>,
    pace: Pace,
    keep: Option<&Keep<'_>>,
    unread: Option<&Held>,
) -> Result<End<'p>, Stop> {
    let mut turns = Turns { server, running: None };
    let turn = |core: &mut Core, _| turns.turn(core, plan, pace, keep, unread).transpose();
    match pace {
        Pace::Short => server.door.turn_by(permit, turn).await.0.unwrap_or(Err(Stop::Long)),
        Pace::Turns | Pace::Whole => {
            let later = Permit::of(&permit.client);
            server.door.turns_in_lane(std::mem::replace(permit, later), turn).await
        }
    }
}

/// A plan between two of its turns. Whoever lets go of it aborts it.
struct Turns<'s, 'p> {
    server: &'s Server,
    running: Option<Running<'p>>,
}

impl<'p> Turns<'_, 'p> {
    /// How it has ended, where it has. It begins where unread answers leave room.
    fn turn(
        &mut self,
        core: &mut Core,
        plan: &'p Plan<'_>,
        pace: Pace,
        keep: Option<&Keep<'_>>,
        unread: Option<&Held>,
    ) -> Result<Option<End<'p>>, Stop> {
        let mut running = match self.running.take() {
            Some(running) => running,
            None if unread.is_none_or(Held::has_room) => Running::begin(core, plan, pace)?,
            None => return Err(Stop::Crowded),
        };
        let end = running.turn(core, keep)?;
        self.running = Some(running).filter(|_| end.is_none());
        Ok(end)
    }
}

impl Drop for Turns<'_, '_> {
    fn drop(&mut self) {
        if let Some(running) = self.running.take() {
            self.server.door.run(|core| running.abort(core));
        }
    }
}

fn text_of(committed: &Committed<'_>, spelling: Spelling) -> Vec<u8> {
    let mut out = Vec::with_capacity(100 + 50 * committed.results.len());
    tell_head(&mut out, committed);
    out.push(b'[');
    for (at, result) in committed.results.iter().enumerate() {
        if at > 0 {
            out.push(b',');
        }
        match result {
            Told::Nothing => out.extend_from_slice(b"null"),
            Told::Row(row) => tell_row(&mut out, row, spelling),
            Told::Rows { rows, more } => {
                out.extend_from_slice(b"{\"rows\":");
                tell_rows(&mut out, rows, spelling);
                let _ = write!(out, ",\"more\":{more}}}");
            }
        }
    }
    out.extend_from_slice(b"]}\n");
    out
}

/// What is told again of a text that is too long to be remembered: all but its results, and a digest of it.
pub fn head_of(committed: &Committed<'_>, text: &[u8]) -> Vec<u8> {
    let mut out = Vec::new();
    tell_head(&mut out, committed);
    // Writing to a vector can't fail.
    let _ = writeln!(out, "null,\"digest\":\"{:x}\"}}", Sha256::digest(text));
    out
}

/// All up to the results.
fn tell_head(out: &mut Vec<u8>, Committed { timestamp, branch, written, .. }: &Committed<'_>) {
    let branch = match branch {
        Branch::Then => "then",
        Branch::Else => "else",
    };
    // Writing to a vector can't fail.
    let _ = write!(out, "{{\"timestamp\":\"{timestamp}\",\"branch\":\"{branch}\",\"written\":{written},\"results\":");
}

/// Rows as a list.
pub fn tell_rows(out: &mut Vec<u8>, rows: &[Row<'_>], spelling: Spelling) {
    out.push(b'[');
    for (at, row) in rows.iter().enumerate() {
        if at > 0 {
            out.push(b',');
        }
        tell_row(out, row, spelling);
    }
    out.push(b']');
}

fn tell_row(out: &mut Vec<u8>, row: &Row<'_>, spelling: Spelling) {
    out.push(b'{');
    tell_members(out, row, spelling);
    out.push(b'}');
}

/// The members of a row.
pub fn tell_members(out: &mut Vec<u8>, row: &Row<'_>, spelling: Spelling) {
    out.extend_from_slice(b"\"key\":");
    tell(out, &row.key, spelling);
    out.extend_from_slice(b",\"value\":");
    match &row.value {
        Some(value) => tell(out, value, spelling),
        None => out.extend_from_slice(b"null"),
    }
    match row.version {
        // Writing to a vector can't fail.
        Some(version) => drop(write!(out, ",\"version\":\"{version}\"")),
        None => out.extend_from_slice(b",\"version\":null"),
    }
}

fn refusal_of(failed: &Failed<'_>, spelling: Spelling) -> Refusal {
    let found = failed.found.iter().map(|(at, row)| match row {
        None => json!({ "if": at }),
        Some(Row { key, value, version }) => json!({
            "if": at,
            "key": told(key, spelling),
            "value": value.as_ref().map(|value| told(value, spelling)),
            "version": version.map(|version| version.to_string()),
        }),
    });
    Refusal::new(409, "condition", "a condition doesn't hold: nothing was changed")
        .with_number("timestamp", failed.timestamp)
        .with("found", found.collect::<Vec<Value>>())
}

#[cfg(test)]
mod tests {
    use super::*;
    use crate::testing::{answers, say, server, session, waits};
    use std::time::Duration;

    /// Reads more than a turn does, and then writes.
    const LONG: &str = r#"{"then":[{"scan":["k",null],"limit":10000},{"put":"z","value":"1"}]}"#;

    fn with_rows() -> Arc<Server> {
        let server = server(&["--keep", "10"]);
        server.door.run(|core| {
            let puts: String = (0..5000).map(|row| format!("put . k{row:05} {row}\n")).collect();
            let mut one = session(core);
            say(core, &mut one, &format!("begin\n{puts}commit .\n"));
        });
        server
    }

    fn undecided(server: &Server) -> usize {
        server.door.run(|core| core.ledger.undecided.len())
    }

    #[tokio::test]
    async fn who_goes_away_between_two_turns_leaves_nothing() {
        let (server, plan) = (with_rows(), Plan::of(LONG.as_bytes()).expect("a plan"));
        let mut permit = Permit::of(&crate::testing::LOOPBACK);
        let mut run = Box::pin(run_until(&server, &mut permit, &plan, Instant::now(), None, None));
        assert!(waits(run.as_mut()).await && undecided(&server) == 1);
        drop(run);
        assert_eq!((undecided(&server), server.door.run(|core| core.shouts)), (0, 0));
        // The lane is free.
        let mut permit = Permit::of(&crate::testing::LOOPBACK);
        assert!(run_until(&server, &mut permit, &plan, Instant::now(), None, None).await.is_ok());
    }

    #[tokio::test]
    async fn a_plan_that_was_overtaken_commits_all_the_same() {
        let (server, plan) = (with_rows(), Plan::of(LONG.as_bytes()).expect("a plan"));
        let mut permit = Permit::of(&crate::testing::LOOPBACK);
        let mut run = Box::pin(run_until(&server, &mut permit, &plan, Instant::now(), None, None));
        assert!(waits(run.as_mut()).await);
        let later = server.door.run(|core| {
            let mut one = session(core);
            answers(core, &mut one, "begin\nget . z\ncommit .\n");
            one.last
        });
        let Ok(End::Committed(done)) = run.await else { panic!("it commits") };
        assert_eq!((later, done.timestamp, done.written, undecided(&server)), (Some(3), 4, 1, 0));
    }

    #[tokio::test(start_paused = true)]
    async fn a_long_plan_waits_for_the_lane_and_who_goes_away_lets_go_of_its_key() {
        let server = server(&[]);
        let [long, short] = [
            r#"{"if":[{"span":["a","b"],"unchanged":"0"}],"then":[{"put":"a","value":"1"}]}"#,
            r#"{"then":[{"put":"b","value":"1"}]}"#,
        ];
        let ask = |body: &'static str| {
            let (server, mut asked) = (&server, Asked::new(&crate::testing::LOOPBACK, "", body, &[body.as_bytes()]));
            async move {
                let plan = Plan::of(body.as_bytes()).expect("a plan");
                let form_of = |_: &Committed<'_>| Form::Put;
                let refused = |failed: Failed<'_>| refusal_of(&failed, Spelling::Text);
                // It is no longer waited for others' transactions.
                answer_once(server, &mut asked, &plan, Instant::now(), &form_of, refused, None).await
            }
        };
        let within = |body| tokio::time::timeout(Duration::from_secs(60), ask(body));
        let lane = server.door.keep_lane().await;
        assert!(within(long).await.is_err());
        assert_eq!(within(short).await.expect("it doesn't wait").map(|answer| answer.timestamp).ok(), Some(1));
        let given_back = async {
            tokio::task::yield_now().await;
            drop(lane);
        };
        let (told, ()) = tokio::join!(within(long), given_back);
        assert_eq!(
            told.expect("the lane is free").map(|answer| (answer.timestamp, answer.is_again)).ok(),
            Some((2, false))
        );
        let again = within(long).await.expect("the lane is free");
        assert_eq!(again.map(|answer| (answer.timestamp, answer.is_again)).ok(), Some((2, true)));
        assert_eq!(server.door.run(|core| core.ledger.greatest), 2);
    }

    /// What a keyed request is told, and whether that was told before.
    async fn told(server: &Server, key: &str, body: &str) -> (String, bool) {
        let plan = Plan::of(body.as_bytes()).expect("a plan");
        let mut asked = Asked::new(&crate::testing::LOOPBACK, "", key, &[body.as_bytes()]);
        let form_of = |committed: &Committed<'_>| Form::Text(text_of(committed, Spelling::Text).into());
        let refused = |failed: Failed<'_>| refusal_of(&failed, Spelling::Text);
        let answer = answer_once(server, &mut asked, &plan, Instant::now(), &form_of, refused, None).await;
        match answer.expect("it commits") {
            Answer { form: Form::Text(text), is_again, .. } => {
                (String::from_utf8(text.to_vec()).expect("text"), is_again)
            }
            other => panic!("{other:?}"),
        }
    }

    #[tokio::test]
    async fn a_read_is_done_anew_and_of_a_long_answer_a_digest_is_told_again() {
        let server = server(&[]);
        let put = r#"{"then":[{"put":"a","value":"VALUE"},{"get":"a"}]}"#;
        let (short, long) = (put.replace("VALUE", "1"), put.replace("VALUE", &"x".repeat(5000)));
        let first = told(&server, "short", &short).await;
        assert_eq!(told(&server, "short", &short).await, (first.0, true));
        let (text, is_again) = told(&server, "long", &long).await;
        assert!(text.len() > 5000 && !is_again);
        let digest = format!("{:x}", Sha256::digest(&text));
        let head = format!(
            "{{\"timestamp\":\"2\",\"branch\":\"then\",\"written\":1,\"results\":null,\"digest\":\"{digest}\"}}\n"
        );
        assert_eq!(told(&server, "long", &long).await, (head, true));
        let read = r#"{"then":[{"get":"a"}]}"#;
        let count = server.remembered.count();
        assert!(!told(&server, "read", read).await.1 && !told(&server, "read", read).await.1);
        assert_eq!(server.remembered.count(), count);
    }
}
