//! One heap for all threads.
//!
//! glibc gives threads heaps of their own, and lays 64 MB of addresses aside for each. What one of them doesn't use no
//! other thread can have. So at a limit of addresses a thread finds no memory while most of what is laid aside is empty,
//! and what `memory` counts says nothing of how near the limit is:
//!
//! ```text
//! five threads of 2 MB each      heaps of their own: 340 MB of addresses      one heap: 14 MB
//! ```
//!
//! How many heaps there are is read from the environment alone, at the program's start. So the program begins anew with
//! another environment, where that doesn't say it yet.

use std::env;
use std::io;
use std::os::unix::process::CommandExt;
use std::process::Command;

/// How many heaps there are at most.
const HEAPS: &str = "MALLOC_ARENA_MAX";
/// The same may be said in here, by another name.
const TUNABLES: (&str, &str) = ("GLIBC_TUNABLES", "arena_max");

/// Begins the program anew, as the same process, where nobody has said how many heaps it is to have. It comes back where
/// somebody has, or with an error: then the program goes on as it is.
pub fn be_one() -> io::Result<()> {
    let has_tunable = env::var(TUNABLES.0).is_ok_and(|words| words.contains(TUNABLES.1));
    if has_tunable || env::var_os(HEAPS).is_some() {
        return Ok(());
    }
    let mut words = env::args_os();
    let mut program = Command::new(env::current_exe()?);
    if let Some(name) = words.next() {
        program.arg0(name);
    }
    Err(program.args(words).env(HEAPS, "1").exec())
}
