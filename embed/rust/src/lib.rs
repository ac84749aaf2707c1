//! Ripsawbean inside a Rust program: an in-memory multiversion timestamp database whose committed changes leave it as
//! ordered feeds. This is a safe wrapper over the functions of `ripsawbean.h`, with no dependency.
//!
//! ```
//! use ripsawbean::{Command, Database, Message, Row, Span};
//!
//! # fn main() -> Result<(), Box<dyn std::error::Error>> {
//! let mut db = Database::open(1024)?;
//! // A line as in a script, with its newline:
//! assert_eq!(db.call("0 begin 10\n")?.text(), "0 0 begin 10 => started\n");
//! // The same from values: bytes are spelled here.
//! db.make(0, Command::Put { ts: 10, key: b"an apple", value: b"3" })?;
//! db.make(0, Command::Commit { ts: 10 })?;
//! db.make(0, Command::Close { to: 10 })?;
//! let opened = db.make(1, Command::OpenInitial { span: Span::ALL, cursor: 10 })?;
//! let feed = opened.number().ok_or("it is opened")?;
//! let told = db.messages(1, feed, 100).collect::<Result<Vec<_>, _>>()?;
//! let row = Row { key: b"an apple".to_vec(), after: Some(b"3".to_vec()), updated: 10 };
//! assert_eq!(told, [Message::Row(row), Message::Resolved(10)]);
//! # Ok(())
//! # }
//! ```
//!
//! A [`Database`] is open for as long as it lives. Calls take it by `&mut`, so no two run at once. It is [`Send`]: the
//! library proves that a handle may go to another thread. Several threads share one behind a
//! [`Mutex`](std::sync::Mutex), or send their lines to the thread that has it.
//!
//! ```
//! use std::sync::Mutex;
//! let db = Mutex::new(ripsawbean::Database::open(1024).expect("it opens"));
//! std::thread::scope(|threads| {
//!     for seat in 0..4 {
//!         let db = &db;
//!         threads.spawn(move || db.lock().unwrap().call(format!("{seat} begin {}\n", seat + 1)).expect("a call").position());
//!     }
//! });
//! assert_eq!(db.lock().unwrap().call("0 stats\n").expect("a call").answer(), "stats 0 4 0 0 0");
//! ```
#![deny(unsafe_code, missing_docs)]

mod command;
mod database;
mod dump;
mod error;
mod event;
mod looks;
#[allow(unsafe_code)]
mod raw;
mod record;
#[cfg(feature = "refusing")]
#[allow(unsafe_code)]
pub mod refusing;
mod replica;
mod several;
mod typed;
mod word;

pub use command::{Command, Span};
pub use database::{Database, Messages};
pub use dump::DumpPlace;
pub use error::{
    BeginError, CallError, CommandError, DumpError, LineFault, NoMemory, OpenError, PollError, Refusal, ReplicaError,
    TakeError, Unwritten, VersionError,
};
pub use event::{Event, Message, Row};
pub use looks::{version, Held, Places};
pub use record::{CommandKind, Outcome, Record};
pub use replica::Replica;
pub use several::{Calls, MOST_ROWS};
pub use typed::{Closed, Room, Rows, Told};
pub use word::{unspell, Spelled};
