//! The yardstick: all commands of a run in plain Rust over std, written for speed. It writes the bytes of `mvfeed run`,
//! and so says what the machine can do. It has no proof, no lock, and no answer when out of memory.
//!
//! Short keys and values stand in place, versions in lists of 256 with their greatest readers, and rows of feeds are
//! written as they are walked.
//!
//! ```text
//! yardstick run [--seats N] [--ring N] [--first N]    a script on standard input
//! yardstick threads mutex|barging N CALLS [1]         calls of one engine under that lock by N threads; 1: each is timed
//! yardstick peer N [PROGRAM]                          the peers' work in process, or by PROGRAM's `run` over pipes
//! yardstick time LIMIT INPUT OUTPUT PROGRAM [ARG..]   what a run of a program took
//! ```
mod barging;
mod bytes;
mod calls;
mod engine;
mod feeds;
mod history;
mod marks;
mod measure;
mod peer;
mod polling;
mod run;
mod text;
mod threads;
mod versions;

use run::{End, Options};
use std::io;
use std::process::exit;

fn main() {
    let words: Vec<String> = std::env::args().skip(1).collect();
    let number = |place: usize| words.get(place).and_then(|word| word.parse().ok()).unwrap_or_else(|| usage());
    match words.first().map(String::as_str) {
        Some("run") => run_script(&words),
        Some("threads") if words.len() >= 4 => threads::run(&words[1], number(2), number(3), words.len() > 4),
        Some("peer") => peer::run(number(1), words.get(2).map(String::as_str)),
        Some("time") if words.len() >= 5 => measure::time(number(1), &words[2], &words[3], &words[4], &words[5..]),
        _ => usage(),
    }
}

fn run_script(words: &[String]) {
    let option = |name: &str, default: u64| match words.iter().position(|word| word == name) {
        None => default,
        Some(at) => words.get(at + 1).and_then(|word| word.parse().ok()).unwrap_or_else(|| usage()),
    };
    let options =
        Options { seats: option("--seats", 64), ring: option("--ring", 1024) as usize, first: option("--first", 0) };
    if !(1..=64).contains(&options.seats) || !(1..=65536).contains(&options.ring) {
        usage()
    }
    match run::run(options, io::stdin().lock(), io::stdout().lock()) {
        Ok(End::Done) => {}
        Ok(End::Fault) => exit(2),
        Ok(End::Spent) => fail("spent"),
        Err(error) => fail(&error.to_string()),
    }
}

fn fail(what: &str) -> ! {
    eprintln!("mvfeed: {what}");
    exit(1)
}

fn usage() -> ! {
    eprintln!("yardstick run [--seats N] [--ring N] [--first N] | threads N CALLS | peer N [PROGRAM]");
    eprintln!("yardstick time LIMIT INPUT OUTPUT PROGRAM [ARG..]");
    exit(1)
}
