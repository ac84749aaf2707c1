//! The server's paths, with the methods and rights of each. `http` asks for the right, lets the gate judge, and hands
//! over what passes.
//!
//! Each handler is `async fn(&Arc<Server>, Request) -> Result<Response, Refusal>`. server/README.md says what each takes
//! and gives.

use crate::api::{keys, openapi, remembered, rows, transact};
use crate::connections::Connections;
use crate::door::Door;
use crate::gate::{Gate, Right};
use crate::http::{Method, Request, Response};
use crate::log::Log;
use crate::options::Options;
use crate::refusal::Refusal;
use crate::shares::Table;
use crate::tasks::Tasks;
use crate::{consumers, dump, metrics, page, reports, session, streams};
use std::future::Future;
use std::sync::Arc;
use tokio::sync::watch;

/// The server's parts, put together. Each handler gets it.
pub struct Server {
    /// The database's identity.
    pub identity: String,
    pub options: Options,
    pub door: Door,
    pub gate: Gate,
    pub log: Arc<Log>,
    pub connections: Arc<Connections>,
    /// Bytes of bodies that aren't answered yet.
    pub bodies: Arc<Table>,
    /// Bytes of reports that aren't taken yet.
    pub reports: Arc<Table>,
    /// Bytes of answers to lines, and of rows and transactions, that aren't taken yet.
    pub unread: Arc<Table>,
    pub streams: streams::Streams,
    pub metrics: metrics::Metrics,
    pub remembered: remembered::Remembered,
    pub tasks: Tasks,
    /// Places of answers that may be long, until they were handed to their sockets.
    pub answers: Arc<Table>,
    /// Whether the server ends.
    pub is_ending: watch::Sender<bool>,
}

impl Server {
    /// Waits until the server ends.
    pub async fn ending(&self) {
        let mut is_ending = self.is_ending.subscribe();
        while !*is_ending.borrow_and_update() {
            if is_ending.changed().await.is_err() {
                return;
            }
        }
    }

    /// Runs a task that the server waits for at its end.
    pub fn spawn(&self, task: impl Future<Output = ()> + Send + 'static) {
        self.tasks.spawn(task);
    }
}

/// What a path stands for.
#[derive(Clone, Copy, Debug, PartialEq, Eq)]
enum Place {
    Session,
    Seat,
    Call,
    Transact,
    Key,
    Rows,
    OpenApi,
    Feed,
    Consumers,
    Consumer,
    State,
    Holders,
    Metrics,
    Dump,
    Transcript,
    Health,
    Examples,
    File,
}

/// The paths that are one word. Beside them there are `/session/SEAT`, `/key/KEY`, `/consumer/NAME` and the page's files.
const PATHS: [(&str, Place); 14] = [
    ("/session", Place::Session),
    ("/call", Place::Call),
    ("/transact", Place::Transact),
    ("/rows", Place::Rows),
    ("/openapi.json", Place::OpenApi),
    ("/feed", Place::Feed),
    ("/consumer", Place::Consumers),
    ("/state", Place::State),
    ("/holders", Place::Holders),
    ("/metrics", Place::Metrics),
    ("/dump", Place::Dump),
    ("/transcript", Place::Transcript),
    ("/healthz", Place::Health),
    ("/page/examples", Place::Examples),
];

impl Place {
    fn of(path: &str) -> Option<Place> {
        let is_below = |front| path.strip_prefix(front).is_some_and(|rest| !rest.is_empty() && !rest.contains('/'));
        match PATHS.iter().find(|(one, _)| *one == path) {
            Some(&(_, place)) => Some(place),
            None if is_below("/session/") => Some(Place::Seat),
            // A key may have any bytes.
            None if path.starts_with("/key/") => Some(Place::Key),
            None if is_below("/consumer/") => Some(Place::Consumer),
            None if page::has(path) => Some(Place::File),
            None => None,
        }
    }

    /// The methods that it takes, and the right that each wants.
    fn methods(self) -> &'static [(Method, Right)] {
        use Method::{Delete, Get, Head, Post, Put};
        match self {
            // What a session's lines may do is asked of each line, and a transaction's steps of each step.
            Place::Session => &[(Get, Right::Any)],
            Place::Call | Place::Transact => &[(Post, Right::Any)],
            Place::Key => &[(Get, Right::Read), (Head, Right::Read), (Put, Right::Write), (Delete, Right::Write)],
            Place::Seat => &[(Delete, Right::Operate)],
            Place::Feed | Place::Dump => &[(Get, Right::Read)],
            Place::Consumer => {
                &[(Get, Right::Read), (Head, Right::Read), (Post, Right::Consume), (Delete, Right::Consume)]
            }
            Place::Health => &[(Get, Right::Nobody), (Head, Right::Nobody)],
            _ => &[(Get, Right::Read), (Head, Right::Read)],
        }
    }

    fn right(self, method: Method) -> Option<Right> {
        self.methods().iter().find(|(one, _)| *one == method).map(|&(_, right)| right)
    }

    fn allowed(self) -> String {
        let names: Vec<&str> = self.methods().iter().map(|(method, _)| method.name()).collect();
        names.join(", ")
    }
}

/// The right that a request wants. A path that isn't there is told to those alone who may read.
pub fn right_of(method: Method, path: &str) -> Right {
    Place::of(path).and_then(|place| place.right(method)).unwrap_or(Right::Read)
}

/// Answers a request that passed the gate.
pub async fn handle(server: &Arc<Server>, request: Request) -> Result<Response, Refusal> {
    let place = Place::of(&request.path).ok_or_else(Refusal::no_path)?;
    if place.right(request.method).is_none() {
        return Err(Refusal::no_method(&place.allowed()));
    }
    match (place, request.method) {
        (Place::Session, _) => session::session(server, request).await,
        (Place::Seat, _) => session::end(server, request).await,
        (Place::Call, _) => session::call(server, request).await,
        (Place::Transact, _) => transact::transact(server, request).await,
        (Place::Key, Method::Put) => keys::put(server, request).await,
        (Place::Key, Method::Delete) => keys::delete(server, request).await,
        (Place::Key, _) => keys::get(server, request).await,
        (Place::Rows, _) => rows::rows(server, request).await,
        (Place::OpenApi, _) => openapi::openapi(server, request).await,
        (Place::Feed, _) => streams::feed(server, request).await,
        (Place::Consumers, _) => consumers::list(server, request).await,
        (Place::Consumer, Method::Post) => consumers::post(server, request).await,
        (Place::Consumer, Method::Delete) => consumers::delete(server, request).await,
        (Place::Consumer, _) => consumers::get(server, request).await,
        (Place::State, _) => reports::state(server, request).await,
        (Place::Holders, _) => reports::holders(server, request).await,
        (Place::Metrics, _) => metrics::metrics(server, request).await,
        (Place::Dump, _) => dump::dump(server, request).await,
        (Place::Transcript, _) => reports::transcript(server, request).await,
        (Place::Health, _) => reports::healthz(server, request).await,
        (Place::Examples, _) => page::examples(server, request).await,
        (Place::File, _) => page::file(server, request).await,
    }
}

#[cfg(test)]
mod tests {
    use super::*;

    #[test]
    fn each_path_of_the_readme_has_its_methods() {
        for (path, allowed) in [
            ("/session", "GET"),
            ("/session/7", "DELETE"),
            ("/call", "POST"),
            ("/transact", "POST"),
            ("/key/", "GET, HEAD, PUT, DELETE"),
            ("/key/a/b%2F", "GET, HEAD, PUT, DELETE"),
            ("/rows", "GET, HEAD"),
            ("/openapi.json", "GET, HEAD"),
            ("/feed", "GET"),
            ("/consumer", "GET, HEAD"),
            ("/consumer/a.b-c_D", "GET, HEAD, POST, DELETE"),
            ("/state", "GET, HEAD"),
            ("/holders", "GET, HEAD"),
            ("/metrics", "GET, HEAD"),
            ("/dump", "GET"),
            ("/transcript", "GET, HEAD"),
            ("/healthz", "GET, HEAD"),
            ("/", "GET, HEAD"),
            ("/page/examples", "GET, HEAD"),
            ("/page/page.mjs", "GET, HEAD"),
        ] {
            assert_eq!(Place::of(path).map(Place::allowed).as_deref(), Some(allowed), "{path}");
        }
        for path in
            ["", "/nothing", "/call/", "/consumer/", "/consumer/a/b", "/session/", "/page/", "/page/../call", "/key"]
        {
            assert_eq!(Place::of(path), None, "{path}");
        }
    }

    #[test]
    fn rights_by_method() {
        assert_eq!(right_of(Method::Get, "/consumer/a"), Right::Read);
        assert_eq!(right_of(Method::Get, "/session"), Right::Any);
        assert_eq!(["/call", "/transact"].map(|path| right_of(Method::Post, path)), [Right::Any; 2]);
        assert_eq!(right_of(Method::Post, "/consumer/a"), Right::Consume);
        assert_eq!(right_of(Method::Delete, "/consumer/a"), Right::Consume);
        assert_eq!(right_of(Method::Delete, "/session/5"), Right::Operate);
        assert_eq!(right_of(Method::Put, "/key/a"), Right::Write);
        assert_eq!(right_of(Method::Head, "/key/a"), Right::Read);
        assert_eq!(right_of(Method::Get, "/healthz"), Right::Nobody);
        assert_eq!(right_of(Method::Other, "/healthz"), Right::Read);
        assert_eq!(right_of(Method::Get, "/nothing"), Right::Read);
    }
}
