//! A connection to PostgreSQL: to that one of several hosts that can be written.
//!
//! ```text
//! postgresql://USER@one,two:5433/DATABASE    one: it doesn't answer; two:5433: it can be written
//! ```
//!
//! 1. Each host has `HOST` for all that makes a connection. So one that is silent costs seconds.
//! 2. What is confirmed with a warning isn't confirmed: so PostgreSQL says that a wait for a synchronous replica was given
//!    up, and that the commit may be lost with this machine.

use super::tls::Tls;
use super::Failure;
use crate::http::Stream;
use parking_lot::Mutex;
use socket2::{SockRef, TcpKeepalive};
use std::error::Error as _;
use std::future::{poll_fn, Future};
use std::sync::Arc;
use std::time::Duration;
use tokio::net::{TcpStream, UnixStream};
use tokio::runtime::Runtime;
use tokio::time::timeout;
use tokio_postgres::config::Host;
use tokio_postgres::error::Severity;
use tokio_postgres::tls::NoTlsStream;
use tokio_postgres::types::ToSql;
use tokio_postgres::{AsyncMessage, Client, Config, Connection, Error, NoTls};

/// How long one host may take for a connection, and the one that was found for what a server asks that waits.
pub const HOST: Duration = Duration::from_secs(3);
/// How long it may take for all else: a commit may wait for a replica that is being replaced.
const PATIENCE: Duration = Duration::from_secs(60);
/// How long what was sent may be on its way.
const ON_ITS_WAY: Duration = Duration::from_secs(10);
/// PostgreSQL finds out by itself where this machine is gone.
const SESSION: &str = "
    SET synchronous_commit = on; SET client_min_messages = warning; SET tcp_user_timeout = '10s';
    SET tcp_keepalives_idle = 3; SET tcp_keepalives_interval = 2; SET tcp_keepalives_count = 3";
/// Classes of refusals that won't change: who asks, which database, and what it may do there.
const FINAL: [&str; 3] = ["28", "3D", "42"];

/// Where PostgreSQL is, and how it is spoken to.
pub struct Address {
    config: Config,
    tls: Option<Tls>,
}

impl Address {
    pub fn of(address: &str) -> Result<Address, Failure> {
        let (place, query) = address.split_once('?').unwrap_or((address, ""));
        let (of_tls, others): (Vec<&str>, Vec<&str>) = query.split('&').partition(|word| word.starts_with("ssl"));
        let config = format!("{place}?{}", others.join("&"));
        let config = config.parse::<Config>().map_err(|error| Failure::Refused(words(&error)))?;
        match config.get_ports().len() {
            count if count <= 1 || count == config.get_hosts().len() => Ok(Address { config, tls: Tls::of(&of_tls)? }),
            _ => Err(Failure::Refused("each host has a port, or all have one".into())),
        }
    }

    fn hosts(&self) -> impl Iterator<Item = (&Host, u16)> {
        let ports = self.config.get_ports();
        let port = move |at| ports.get(at).or(ports.first()).copied().unwrap_or(5432);
        self.config.get_hosts().iter().enumerate().map(move |(at, host)| (host, port(at)))
    }

    /// A connection to one host, where that can be written.
    async fn connect(&self, host: &Host, port: u16, warning: &Warning) -> Result<Client, Failure> {
        let stream: Box<dyn Stream> = match host {
            Host::Tcp(name) => {
                let stream = Box::new(tcp(name, port).await.map_err(failure)?);
                match &self.tls {
                    Some(tls) => tls.agree(stream, name).await.map_err(failure)?,
                    None => stream,
                }
            }
            Host::Unix(path) => {
                Box::new(UnixStream::connect(path.join(format!(".s.PGSQL.{port}"))).await.map_err(failure)?)
            }
        };
        let (client, connection) = self.config.connect_raw(stream, NoTls).await.map_err(|error| failure_of(&error))?;
        tokio::spawn(follow(connection, warning.clone()));
        client.batch_execute(SESSION).await.map_err(|error| failure_of(&error))?;
        let read_only = "SELECT current_setting('transaction_read_only')::boolean";
        match client.query_one(read_only, &[]).await.map_err(|error| failure_of(&error))?.get(0) {
            true => Err(failure("it can't be written")),
            false => Ok(client),
        }
    }
}

async fn tcp(name: &str, port: u16) -> std::io::Result<TcpStream> {
    let stream = TcpStream::connect((name, port)).await?;
    stream.set_nodelay(true)?;
    let second = Duration::from_secs(1);
    let socket = SockRef::from(&stream);
    socket.set_tcp_keepalive(&TcpKeepalive::new().with_time(3 * second).with_interval(2 * second).with_retries(3))?;
    socket.set_tcp_user_timeout(Some(ON_ITS_WAY))?;
    Ok(stream)
}

/// What PostgreSQL has warned of last.
pub type Warning = Arc<Mutex<Option<String>>>;

/// Follows a connection to its end.
async fn follow(mut connection: Connection<Box<dyn Stream>, NoTlsStream>, warning: Warning) {
    while let Some(Ok(message)) = poll_fn(|context| connection.poll_message(context)).await {
        match message {
            AsyncMessage::Notice(notice) if notice.parsed_severity() == Some(Severity::Warning) => {
                *warning.lock() = Some(notice.message().into());
            }
            _ => {}
        }
    }
}

/// A connection, with what makes its calls.
pub struct Session {
    pub runtime: Runtime,
    pub client: Client,
    /// What this server has raised the epoch to, once it owns the journal.
    pub epoch: i64,
    pub warning: Warning,
}

impl Session {
    /// A connection to the first host that can be written.
    pub fn connect(address: &Address) -> Result<Session, Failure> {
        let runtime = tokio::runtime::Builder::new_current_thread().enable_all().build().map_err(failure)?;
        let (warning, mut found) = (Warning::default(), Vec::new());
        for (host, port) in address.hosts() {
            let connected = async { timeout(HOST, address.connect(host, port, &warning)).await };
            let why = match runtime.block_on(connected) {
                Ok(Ok(client)) => return Ok(Session { runtime, client, epoch: 0, warning }),
                Ok(Err(Failure::Postgres(why))) => why,
                Ok(Err(refused)) => return Err(refused),
                Err(_) => SILENT.into(),
            };
            found.push(match host {
                Host::Tcp(name) => format!("{name}:{port}: {why}"),
                Host::Unix(path) => format!("{}:{port}: {why}", path.display()),
            });
        }
        // A name that is still looked up isn't waited for.
        runtime.shutdown_background();
        Err(failure(found.join("; ")))
    }

    /// What PostgreSQL answers in time.
    pub fn ask<T>(&self, asked: impl Future<Output = Result<T, Error>>) -> Result<T, Failure> {
        self.ask_within(PATIENCE, asked)
    }

    pub fn ask_within<T>(&self, time: Duration, asked: impl Future<Output = Result<T, Error>>) -> Result<T, Failure> {
        let answered = self.runtime.block_on(async { timeout(time, asked).await });
        answered.map_err(|_| failure(SILENT))?.map_err(|error| failure_of(&error))
    }

    /// What PostgreSQL has confirmed, without a warning.
    pub fn confirmed<T>(&self, asked: impl Future<Output = Result<T, Error>>) -> Result<T, Failure> {
        *self.warning.lock() = None;
        let answered = self.ask(asked)?;
        match self.warning.lock().take() {
            Some(why) => Err(failure(format!("it has confirmed a write, and warned that {why:?}"))),
            None => Ok(answered),
        }
    }

    /// Changes rows by one of the statements under the epoch: how many.
    pub fn change(&self, statement: &str, words: &[&(dyn ToSql + Sync)]) -> Result<u64, Failure> {
        let all = [&[&self.epoch as &(dyn ToSql + Sync)], words].concat();
        self.confirmed(self.client.execute(statement, &all))
    }

    /// The same of what changes a row wherever this server is still the owner.
    pub fn change_one(&self, statement: &str, words: &[&(dyn ToSql + Sync)]) -> Result<(), Failure> {
        match self.change(statement, words)? {
            0 => Err(Failure::Fenced),
            _ => Ok(()),
        }
    }
}

const SILENT: &str = "it doesn't answer";

pub fn failure(error: impl std::fmt::Display) -> Failure {
    Failure::Postgres(error.to_string())
}

fn failure_of(error: &Error) -> Failure {
    let is_final = error.code().is_some_and(|code| FINAL.iter().any(|class| code.code().starts_with(class)));
    match is_final {
        true => Failure::Refused(words(error)),
        false => Failure::Postgres(words(error)),
    }
}

/// PostgreSQL's own words, or what lies below an error, which its display leaves out.
fn words(error: &Error) -> String {
    match (error.as_db_error(), error.source()) {
        (Some(refused), _) => refused.to_string(),
        (None, Some(source)) => format!("{error}: {source}"),
        (None, None) => error.to_string(),
    }
}
