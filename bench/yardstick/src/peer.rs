//! The work of the peers' programs: transactions of two reads and two writes over 10,000 keys; the changed rows read
//! back as a feed; the time from the start of a transaction to its rows in the feed. In process, or as text over
//! pipes to `PROGRAM run`. It prints lines of a name and a number.
use crate::calls::{Cmd, Kind, Reply, Sink, Span};
use crate::engine::Engine;
use std::hint::black_box;
use std::io::{BufRead, BufReader, Write};
use std::process::{Child, ChildStdout, Command, Stdio};
use std::time::Instant;

const KEYS: u64 = 10_000;
const LAGS: u64 = 20_000;
/// How many transactions are sent before a closing.
const CLOSE_EACH: u64 = 100;

/// The words of a transaction: two keys that it reads, and two that it writes with their values.
type Txn = [String; 6];

struct Count(u64);

impl Sink for Count {
    fn value(&mut self, value: &[u8]) {
        black_box(value);
    }
    fn row(&mut self, key: &[u8], value: &[u8]) {
        black_box((key, value));
    }
    fn change(&mut self, _: u64, key: &[u8], after: Option<&[u8]>) {
        self.0 += 1;
        black_box((key, after));
    }
    fn resolved(&mut self, ts: u64) {
        black_box(ts);
    }
}

struct Dice(u64);

impl Dice {
    fn word(&mut self, letter: char, limit: u64) -> String {
        self.0 ^= self.0 << 13;
        self.0 ^= self.0 >> 7;
        self.0 ^= self.0 << 17;
        format!("{letter}{:07}", (self.0 >> 11) % limit)
    }

    fn txn(&mut self) -> Txn {
        let (a, b) = (self.word('k', KEYS), self.word('k', KEYS));
        let (c, v) = (self.word('k', KEYS), self.word('v', 10_000_000));
        [a, b, c, v, self.word('k', KEYS), self.word('v', 10_000_000)]
    }
}

pub fn run(count: u64, program: Option<&str>) {
    let dice = Dice(88172645463325252);
    match program {
        None => in_process(count, dice),
        Some(program) => over_pipes(count, dice, program),
    }
}

fn say_rate(name: &str, count: f64, start: Instant) {
    println!("{name} {:.1}", count / start.elapsed().as_secs_f64());
}

fn say_lag(mut lags: Vec<f64>) {
    lags.sort_by(f64::total_cmp);
    println!("lag_us {:.2}", lags[lags.len() / 2] * 1e6);
}

fn transact(engine: &mut Engine, ts: u64, words: &Txn, out: &mut Count) {
    let word = |at: usize| words[at].as_bytes();
    engine.step(0, Cmd::Begin(ts), out);
    engine.step(0, Cmd::Get(ts, word(0)), out);
    engine.step(0, Cmd::Get(ts, word(1)), out);
    engine.step(0, Cmd::Put(ts, word(2), word(3)), out);
    engine.step(0, Cmd::Put(ts, word(4), word(5)), out);
    engine.step(0, Cmd::Commit(ts), out);
}

fn in_process(count: u64, mut dice: Dice) {
    let (mut engine, mut out) = (Engine::new(1024), Count(0));
    engine.step(0, Cmd::Open(Span { lo: b"", hi: b"" }, 0, Kind { initial: false, gap: None }), &mut out);
    let start = Instant::now();
    for ts in 1..=count {
        transact(&mut engine, ts, &dice.txn(), &mut out);
        if ts % CLOSE_EACH == 0 {
            engine.step(0, Cmd::Close(ts), &mut out);
        }
    }
    say_rate("alone", count as f64, start);
    engine.step(0, Cmd::Close(count), &mut out);
    let start = Instant::now();
    while engine.step(0, Cmd::Poll(1, 1000), &mut out) != Reply::Messages(0) {}
    say_rate("rows", out.0 as f64, start);
    let mut lags = Vec::new();
    for ts in count + 1..=count + LAGS {
        let start = Instant::now();
        transact(&mut engine, ts, &dice.txn(), &mut out);
        engine.step(0, Cmd::Close(ts), &mut out);
        engine.step(0, Cmd::Poll(1, 10), &mut out);
        lags.push(start.elapsed().as_secs_f64());
    }
    say_lag(lags);
}

fn lines(ts: u64, words: &Txn) -> String {
    let [a, b, c, v, d, w] = words;
    format!("0 begin {ts}\n0 get {ts} {a}\n0 get {ts} {b}\n0 put {ts} {c} {v}\n0 put {ts} {d} {w}\n0 commit {ts}\n")
}

/// A program behind pipes.
struct Piped {
    child: Child,
    from: BufReader<ChildStdout>,
    line: String,
}

impl Piped {
    fn new(program: &str) -> Piped {
        let mut command = Command::new(program);
        command.arg("run").stdin(Stdio::piped()).stdout(Stdio::piped());
        let mut child = command.spawn().expect("the program runs");
        let from = BufReader::with_capacity(1 << 16, child.stdout.take().expect("piped"));
        Piped { child, from, line: String::new() }
    }

    fn send(&mut self, text: &str) {
        self.child.stdin.as_mut().expect("piped").write_all(text.as_bytes()).expect("written");
    }

    /// Reads up to a line with this beginning.
    fn read_until(&mut self, begin: &str) {
        loop {
            self.line.clear();
            assert!(self.from.read_line(&mut self.line).expect("read") > 0, "it ended early");
            if self.line.starts_with(begin) {
                return;
            }
        }
    }

    /// Sends texts from a thread of its own, and reads up to a line with this beginning.
    fn stream(&mut self, texts: &[String], begin: &str) {
        let mut to = self.child.stdin.take().expect("piped");
        std::thread::scope(|s| {
            let sender = s.spawn(move || {
                texts.iter().for_each(|text| to.write_all(text.as_bytes()).expect("written"));
                to
            });
            self.read_until(begin);
            self.child.stdin = Some(sender.join().expect("sent"));
        });
    }
}

fn over_pipes(count: u64, mut dice: Dice, program: &str) {
    let mut piped = Piped::new(program);
    piped.send("0 open - - 0\n");
    let mut texts = Vec::new();
    for first in (1..=count).step_by(CLOSE_EACH as usize) {
        let last = first + CLOSE_EACH - 1;
        let text: String = (first..=last).map(|ts| lines(ts, &dice.txn())).collect();
        texts.push(text + &format!("0 close {last}\n"));
    }
    let start = Instant::now();
    piped.stream(&texts, &format!("{} 0 close", count * 6 + count / CLOSE_EACH));
    say_rate("pipelined", count as f64, start);
    let polls = vec![String::from("0 poll 1 1000\n"); (2 * count / 1000 + 1) as usize];
    let start = Instant::now();
    piped.stream(&polls, "{\"resolved\"");
    say_rate("rows", 2.0 * count as f64, start);
    let mut lags = Vec::new();
    let alone = Instant::now();
    for ts in count + 1..=count + LAGS {
        let start = Instant::now();
        piped.send(&(lines(ts, &dice.txn()) + &format!("0 close {ts}\n0 poll 1 10\n")));
        piped.read_until("{\"resolved\"");
        lags.push(start.elapsed().as_secs_f64());
    }
    say_rate("alone", LAGS as f64, alone);
    say_lag(lags);
    drop(piped.child.stdin.take());
    piped.child.wait().expect("ended");
}
