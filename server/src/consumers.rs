//! `/consumer` and `/consumer/NAME`: what consumers ask and say of their names. `names` has what stands.
//!
//! 1. A timestamp means nothing without the database's identity, so whoever says one says that too.
//! 2. All names are told in turns, so that no one waits for long.

use crate::core::Core;
use crate::door::{Door, Length};
use crate::http::{Request, Response};
use crate::json;
use crate::ledger::Name;
use crate::names::{name_in, Told};
use crate::query::{arguments, percent_decoded, Arguments};
use crate::refusal::Refusal;
use crate::reports::Report;
use crate::routes::Server;
use crate::shares::Client;
use std::sync::Arc;

/// Names that are told while the lock is held.
const NAMES_A_TURN: usize = 500;
/// Bytes that a name takes in the metrics at most: two samples, and what they are made of.
const BYTES_IN_METRICS: usize = 300;

pub async fn list(server: &Arc<Server>, request: Request) -> Result<Response, Refusal> {
    arguments(&request.path, &request.query, &[])?;
    let mut report = Report::begin(server, &request);
    lines_of_all(&server.door, &request.client, &mut report).await?;
    Ok(report.told())
}

pub async fn get(server: &Arc<Server>, request: Request) -> Result<Response, Refusal> {
    let name = name_of_path(&request)?;
    let given = arguments(&request.path, &request.query, &["identity"])?;
    server.door.run(|core| {
        core.names.check_room(&name, &request.client)?;
        core.check_identity(&given, false)?;
        Ok(json::lines(core.line_of(&name)))
    })
}

pub async fn post(server: &Arc<Server>, request: Request) -> Result<Response, Refusal> {
    let name = name_of_path(&request)?;
    let given = arguments(&request.path, &request.query, &["identity", "stored", "generation"])?;
    server.door.run(|core| {
        core.names.check_room(&name, &request.client)?;
        core.check_identity(&given, true)?;
        core.store(&name, needed(&given, "stored")?, needed(&given, "generation")?, &request.client)?;
        core.give_name(&name, &request.who);
        Ok(json::lines(core.line_of(&name)))
    })
}

pub async fn delete(server: &Arc<Server>, request: Request) -> Result<Response, Refusal> {
    let name = name_of_path(&request)?;
    let given = arguments(&request.path, &request.query, &["identity"])?;
    server.door.run(|core| {
        core.check_identity(&given, false)?;
        if core.names.has(&name) {
            core.give_name(&name, &request.who);
            core.log.audit("name_deleted", &[("name", (&*name).into()), ("by", request.who.name().into())]);
        }
        core.forget(&name);
        Ok(json::lines(core.line_of(&name)))
    })
}

fn name_of_path(request: &Request) -> Result<Name, Refusal> {
    let (_, word) = request.path.rsplit_once('/').unwrap_or_default();
    name_in(&percent_decoded(word.as_bytes())?)
}

fn needed(given: &Arguments, word: &'static str) -> Result<u64, Refusal> {
    let why = "a consumer says what it has stored, and its generation: 0 before its first stream";
    given.number(word).ok_or_else(|| Refusal::new(400, word, why))
}

impl Core {
    /// Whether the identity that is given is this database's.
    pub fn check_identity(&self, given: &Arguments, is_needed: bool) -> Result<(), Refusal> {
        let (status, why) = match given.bytes("identity") {
            None if is_needed => (400, "a timestamp means nothing without its identity"),
            Some(identity) if identity != self.identity.as_bytes() => (409, "this is another database: begin anew"),
            _ => return Ok(()),
        };
        Err(Refusal::new(status, "identity", why).with("identity", self.identity.as_str()))
    }
}

// ---- all of them

/// Takes all names in turns: `each` is given those of one turn.
async fn in_turns(
    door: &Door,
    client: &Client,
    mut each: impl FnMut(&Core, &[Name]) -> Result<(), Refusal>,
) -> Result<(), Refusal> {
    let mut last = None;
    loop {
        let turn = door.turn_of(Length::Short, client, |core, _| {
            let names = core.names.behind(last.as_ref(), NAMES_A_TURN);
            each(core, &names).map(|()| names)
        });
        let names = turn.await.0?;
        if names.len() < NAMES_A_TURN {
            return Ok(());
        }
        last = names.last().cloned();
        tokio::task::yield_now().await;
    }
}

/// What is known of each name, as lines of a report.
pub async fn lines_of_all(door: &Door, client: &Client, report: &mut Report) -> Result<(), Refusal> {
    in_turns(door, client, |core, names| report.add(names.iter().map(|name| core.line_of(name)).collect())).await
}

/// What `metrics` tells of each name, for a report which is to hold it.
pub async fn told_of_all(door: &Door, client: &Client, report: &mut Report) -> Result<Vec<Told>, Refusal> {
    let mut found = Vec::new();
    in_turns(door, client, |core, names| {
        found.extend(names.iter().map(|name| core.told_of(name)));
        report.will_have(found.len() * BYTES_IN_METRICS)
    })
    .await?;
    Ok(found)
}

#[cfg(test)]
mod tests {
    use super::*;
    use crate::testing::{core, IDENTITY};

    fn error(result: Result<(), Refusal>) -> (u16, &'static str) {
        result.map_or_else(|refusal| (refusal.status, refusal.error), |()| (200, ""))
    }

    #[test]
    fn an_identity_is_asked_for_where_it_is_needed() {
        let core = core(&[]);
        let given = |query: &str| arguments("/consumer/a", query, &["identity"]).expect("it is well-formed");
        assert_eq!(error(core.check_identity(&given(""), false)), (200, ""));
        assert_eq!(error(core.check_identity(&given(""), true)), (400, "identity"));
        assert_eq!(error(core.check_identity(&given("identity=other"), false)), (409, "identity"));
        assert_eq!(error(core.check_identity(&given(&format!("identity={IDENTITY}")), true)), (200, ""));
    }
}
