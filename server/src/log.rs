//! What the server says of itself: lines to standard error.
//!
//! A line has the time, its level, the name of an event, and fields. Whoever reads it by a program asks for JSON.
//!
//! ```text
//! 2026-11-28T23:12:10.123Z warn connections_full open=1000 cut=192.0.2.7:4711
//! {"time":"2026-11-28T23:12:10.123Z","level":"warn","event":"connections_full","open":1000,"cut":"192.0.2.7:4711"}
//! ```
//!
//! 1. A line is one line, whatever stands in a field, so no client can forge one.
//! 2. An event is written at most `MOST` times a minute. What was left out is told as a count, after the minute.
//! 3. Audit lines, which say who changed what is another's, are written at each level and however many they are.
//! 4. No token and no value of the database is ever a field. That is the callers' care.
//! 5. Who says something never waits for whoever reads it: a thread writes. Else a pipe that nobody reads would hold up
//!    the lock of the database, and everyone. Lines that find no room are lost, and counted in one that comes later:
//!    `log_lost lines=17`. Audit lines have the most room.

use parking_lot::{Condvar, Mutex};
use serde_json::Value;
use std::collections::BTreeMap;
use std::fmt::Write as _;
use std::io::Write;
use std::str::FromStr;
use std::sync::{mpsc, Arc};
use std::time::{Duration, Instant, SystemTime, UNIX_EPOCH};
use std::{panic, process, thread};

const MOST: u64 = 60; // lines of one event a minute
const MINUTE: Duration = Duration::from_secs(60);
/// Bytes of lines that wait, and of lines with audit lines.
const ROOM: usize = 1 << 18;
const AUDIT_ROOM: usize = 1 << 20;
/// Whoever reads the lines has taken none for so long: it is told.
const STUCK: Duration = Duration::from_secs(10);
/// How long the last lines have.
const END: Duration = Duration::from_secs(1);

#[derive(Debug, Clone, Copy, PartialEq, Eq, PartialOrd, Ord)]
pub enum Level {
    Error,
    Warn,
    Info,
    Debug,
}

impl Level {
    fn name(self) -> &'static str {
        match self {
            Level::Error => "error",
            Level::Warn => "warn",
            Level::Info => "info",
            Level::Debug => "debug",
        }
    }
}

impl FromStr for Level {
    type Err = ();

    fn from_str(word: &str) -> Result<Level, ()> {
        [Level::Error, Level::Warn, Level::Info, Level::Debug].into_iter().find(|level| level.name() == word).ok_or(())
    }
}

pub type Field<'a> = (&'a str, Value);

pub struct Log {
    level: Level,
    shared: Arc<Shared>,
}

struct Shared {
    is_json: bool,
    inner: Mutex<Inner>,
    /// There is something to write.
    came: Condvar,
    /// All that came was written.
    written: Condvar,
}

#[derive(Default)]
struct Inner {
    repeats: BTreeMap<&'static str, Repeats>,
    /// Lines that wait.
    lines: Vec<u8>,
    /// How many found no room.
    lost: u64,
    /// Since when the lines before them are being written.
    writing: Option<Instant>,
    is_over: bool,
}

/// How often an event came within a minute.
struct Repeats {
    since: Instant,
    level: Level,
    count: u64,
}

impl Repeats {
    fn left_out(&self) -> u64 {
        self.count.saturating_sub(MOST)
    }

    fn is_over(&self, now: Instant) -> bool {
        now.saturating_duration_since(self.since) >= MINUTE
    }
}

impl Log {
    pub fn new(level: Level, is_json: bool) -> Log {
        Log::to(level, is_json, Box::new(std::io::stderr()))
    }

    pub fn to(level: Level, is_json: bool, out: Box<dyn Write + Send>) -> Log {
        let inner = Mutex::new(Inner::default());
        let shared = Arc::new(Shared { is_json, inner, came: Condvar::new(), written: Condvar::new() });
        let writes = shared.clone();
        thread::spawn(move || writes.write_to(out));
        Log { level, shared }
    }

    pub fn error(&self, event: &'static str, fields: &[Field]) {
        self.say(Level::Error, event, fields, Instant::now());
    }

    pub fn warn(&self, event: &'static str, fields: &[Field]) {
        self.say(Level::Warn, event, fields, Instant::now());
    }

    pub fn info(&self, event: &'static str, fields: &[Field]) {
        self.say(Level::Info, event, fields, Instant::now());
    }

    pub fn debug(&self, event: &'static str, fields: &[Field]) {
        self.say(Level::Debug, event, fields, Instant::now());
    }

    /// Who changed what is another's.
    pub fn audit(&self, event: &'static str, fields: &[Field]) {
        let line = self.shared.line(Level::Info, event, fields);
        self.with(|inner| inner.add(&line, AUDIT_ROOM));
    }

    /// Whether whoever reads the lines has taken none for long.
    pub fn is_stuck(&self) -> bool {
        self.shared.inner.lock().writing.is_some_and(|since| since.elapsed() > STUCK)
    }

    /// Waits until all lines are written, for a second at most.
    pub fn flush(&self) {
        let (mut inner, end) = (self.shared.inner.lock(), Instant::now() + END);
        while !inner.lines.is_empty() || inner.writing.is_some() {
            if self.shared.written.wait_until(&mut inner, end).timed_out() {
                return;
            }
        }
    }

    /// Tells the counts of minutes that are over. Once a second is often enough.
    pub fn tidy(&self) {
        self.tidy_at(Instant::now());
    }

    fn tidy_at(&self, now: Instant) {
        self.with(|inner| {
            let over: Vec<_> =
                inner.repeats.iter().filter(|(_, one)| one.is_over(now)).map(|(event, _)| *event).collect();
            for event in over {
                self.end_minute(inner, event);
            }
        });
    }

    fn say(&self, level: Level, event: &'static str, fields: &[Field], now: Instant) {
        if level > self.level {
            return;
        }
        self.with(|inner| {
            if inner.repeats.get(event).is_some_and(|one| one.is_over(now)) {
                self.end_minute(inner, event);
            }
            let repeats = inner.repeats.entry(event).or_insert(Repeats { since: now, level, count: 0 });
            repeats.count += 1;
            if repeats.count <= MOST {
                inner.add(&self.shared.line(level, event, fields), ROOM);
            }
        });
    }

    fn end_minute(&self, inner: &mut Inner, event: &'static str) {
        let Some(one) = inner.repeats.remove(event) else { return };
        if one.left_out() > 0 {
            inner.add(&self.shared.line(one.level, event, &[("left_out", one.left_out().into())]), ROOM);
        }
    }

    fn with(&self, work: impl FnOnce(&mut Inner)) {
        work(&mut self.shared.inner.lock());
        self.shared.came.notify_one();
    }
}

impl Drop for Log {
    fn drop(&mut self) {
        self.flush();
        self.with(|inner| inner.is_over = true);
    }
}

impl Inner {
    fn add(&mut self, line: &str, room: usize) {
        match self.lines.len() + line.len() > room {
            true => self.lost += 1,
            false => self.lines.extend_from_slice(line.as_bytes()),
        }
    }
}

impl Shared {
    fn write_to(&self, mut out: Box<dyn Write + Send>) {
        let mut lines = Vec::new();
        while self.take(&mut lines) {
            // Where standard error is closed there is nobody to tell.
            let _ = out.write_all(&lines).and_then(|()| out.flush());
        }
    }

    /// Waits for lines, and takes them in place of those that are written. There are none once the log is over.
    fn take(&self, lines: &mut Vec<u8>) -> bool {
        let mut inner = self.inner.lock();
        inner.writing = None;
        self.written.notify_all();
        while inner.lines.is_empty() && !inner.is_over {
            self.came.wait(&mut inner);
        }
        lines.clear();
        std::mem::swap(lines, &mut inner.lines);
        let lost = std::mem::take(&mut inner.lost);
        if lost > 0 {
            lines.extend_from_slice(self.line(Level::Warn, "log_lost", &[("lines", lost.into())]).as_bytes());
        }
        inner.writing = Some(Instant::now());
        !lines.is_empty()
    }

    fn line(&self, level: Level, event: &str, fields: &[Field]) -> String {
        let time = time_text(SystemTime::now());
        match self.is_json {
            true => json_line(&time, level, event, fields),
            false => text_line(&time, level, event, fields),
        }
    }
}

/// The process ends with these words. They have a second.
pub fn last_words(words: String) {
    let (said, is_said) = mpsc::channel();
    // Where there is no thread nobody waits: whoever is to say them is dropped.
    let _ = thread::Builder::new().spawn(move || {
        eprintln!("ripsawbean-server: {words}");
        let _ = said.send(());
    });
    let _ = is_said.recv_timeout(END);
}

/// Whatever panics ends the process, also where nobody reads what it says.
pub fn end_at_a_panic() {
    panic::set_hook(Box::new(|why| {
        last_words(why.to_string());
        process::abort();
    }));
}

fn json_line(time: &str, level: Level, event: &str, fields: &[Field]) -> String {
    let head: [Field; 3] = [("time", time.into()), ("level", level.name().into()), ("event", event.into())];
    let members: Vec<String> =
        head.iter().chain(fields).map(|(name, value)| format!("{}:{value}", Value::from(*name))).collect();
    format!("{{{}}}\n", members.join(","))
}

fn text_line(time: &str, level: Level, event: &str, fields: &[Field]) -> String {
    let mut line = format!("{time} {} {event}", level.name());
    for (name, value) in fields {
        // Writing to a string can't fail.
        let _ = match value.as_str() {
            Some(word) if is_plain(word) => write!(line, " {name}={word}"),
            _ => write!(line, " {name}={}", plain_ascii(value)),
        };
    }
    line.push('\n');
    line
}

fn is_plain(word: &str) -> bool {
    !word.is_empty() && word.bytes().all(|byte| byte.is_ascii_graphic() && !b"\"\\=".contains(&byte))
}

/// As JSON, where whatever isn't printable ASCII is escaped, so that no terminal takes it for a command.
fn plain_ascii(value: &Value) -> String {
    let mut text = String::new();
    for unit in value.to_string().encode_utf16() {
        match u8::try_from(unit) {
            Ok(byte @ b' '..=b'~') => text.push(char::from(byte)),
            _ => text.push_str(&format!("\\u{unit:04x}")),
        }
    }
    text
}

/// The time in UTC, as RFC 3339 writes it.
fn time_text(time: SystemTime) -> String {
    let since = time.duration_since(UNIX_EPOCH).unwrap_or_default();
    let (days, second) = (since.as_secs() / 86_400, since.as_secs() % 86_400);
    let (year, month, day) = date_of(days);
    let (hour, minute, second) = (second / 3600, second / 60 % 60, second % 60);
    format!("{year:04}-{month:02}-{day:02}T{hour:02}:{minute:02}:{second:02}.{:03}Z", since.subsec_millis())
}

/// Year, month and day of the Gregorian calendar, from days since 1 January 1970.
///
/// Years begin in March here, so that the day of a leap year comes last; 400 years have 146,097 days.
fn date_of(days: u64) -> (u64, u64, u64) {
    let days = days + 719_468; // since 1 March of the year 0
    let (era, day) = (days / 146_097, days % 146_097);
    let year = (day - day / 1460 + day / 36_524 - day / 146_096) / 365;
    let day = day - (365 * year + year / 4 - year / 100);
    let march = (5 * day + 2) / 153; // months since March
    let (month, day) = ((march + 2) % 12 + 1, day - (153 * march + 2) / 5 + 1);
    (era * 400 + year + u64::from(month <= 2), month, day)
}

#[cfg(test)]
mod tests {
    use super::*;
    use std::os::unix::process::ExitStatusExt;
    use std::process::{Command, Stdio};

    /// What was written. Whoever holds it holds up the writing.
    #[derive(Clone, Default)]
    struct Kept(Arc<Mutex<Vec<u8>>>);

    impl Write for Kept {
        fn write(&mut self, bytes: &[u8]) -> std::io::Result<usize> {
            self.0.lock().write(bytes)
        }

        fn flush(&mut self) -> std::io::Result<()> {
            Ok(())
        }
    }

    impl Kept {
        fn text(&self, log: &Log) -> String {
            log.flush();
            String::from_utf8(self.0.lock().clone()).unwrap()
        }

        /// The lines so far, without their times.
        fn lines(&self, log: &Log) -> Vec<String> {
            let text = self.text(log);
            assert!(text.is_empty() || text.ends_with('\n'));
            text.lines().map(|line| line.split_once(' ').map_or(line, |(_, rest)| rest).to_string()).collect()
        }
    }

    fn log(level: Level, is_json: bool) -> (Log, Kept) {
        let kept = Kept::default();
        (Log::to(level, is_json, Box::new(kept.clone())), kept)
    }

    #[test]
    fn days_are_those_of_the_calendar() {
        for (seconds, text) in [
            (0, "1970-01-01T00:00:00.000Z"),
            (951_782_399, "2000-02-28T23:59:59.000Z"),
            (951_782_400, "2000-02-29T00:00:00.000Z"),
            (951_868_800, "2000-03-01T00:00:00.000Z"),
            (1_000_000_000, "2001-09-09T01:46:40.000Z"),
            (1_709_164_800, "2024-02-29T00:00:00.000Z"),
            (1_735_689_599, "2024-12-31T23:59:59.000Z"),
            (2_147_483_647, "2038-01-19T03:14:07.000Z"),
            (4_107_542_400, "2100-03-01T00:00:00.000Z"),
        ] {
            assert_eq!(time_text(UNIX_EPOCH + Duration::from_secs(seconds)), text);
        }
        assert_eq!(time_text(UNIX_EPOCH + Duration::from_millis(1_001)), "1970-01-01T00:00:01.001Z");
    }

    #[test]
    fn a_line_stays_one_line_and_printable() {
        let (log, kept) = log(Level::Info, false);
        let fields = [("a", "x y".into()), ("b", "1\n2 error forged".into()), ("c", 7.into()), ("d", "".into())];
        log.info("one", &fields);
        log.info("two", &[("peer", "[::1]:80".into()), ("e", "\u{1b}[2J\u{e9}\u{1f600}\"".into())]);
        assert_eq!(
            kept.lines(&log),
            [
                "info one a=\"x y\" b=\"1\\n2 error forged\" c=7 d=\"\"",
                "info two peer=[::1]:80 e=\"\\u001b[2J\\u00e9\\ud83d\\ude00\\\"\"",
            ]
        );
    }

    #[test]
    fn json_lines_are_objects() {
        let (log, kept) = log(Level::Info, true);
        log.warn("full", &[("open", 1000.into()), ("cut", "a \"b\"\n".into())]);
        let text = kept.text(&log);
        assert_eq!(text.matches('\n').count(), 1);
        let value: Value = serde_json::from_str(&text).unwrap();
        assert_eq!((&value["level"], &value["event"], &value["open"]), (&"warn".into(), &"full".into(), &1000.into()));
        assert_eq!(value["cut"], "a \"b\"\n");
        assert!(text.starts_with("{\"time\":\"2"));
    }

    #[test]
    fn levels_above_the_chosen_one_are_left_out_but_for_audit_lines() {
        let (log, kept) = log(Level::Warn, false);
        log.error("a", &[]);
        log.warn("b", &[]);
        log.info("c", &[]);
        log.debug("d", &[]);
        log.audit("e", &[]);
        assert_eq!(kept.lines(&log), ["error a", "warn b", "info e"]);
        assert_eq!("debug".parse(), Ok(Level::Debug));
        assert_eq!("Debug".parse::<Level>(), Err(()));
    }

    #[test]
    fn a_flood_of_one_event_is_counted_and_others_are_told() {
        let (log, kept) = log(Level::Info, false);
        let start = Instant::now();
        for _ in 0..1000 {
            log.say(Level::Warn, "flood", &[], start);
        }
        log.say(Level::Info, "other", &[], start);
        for _ in 0..100 {
            log.audit("closehard", &[]);
        }
        let count = |line: &str| kept.lines(&log).iter().filter(|one| *one == line).count();
        assert_eq!((count("warn flood"), count("info other"), count("info closehard")), (60, 1, 100));
        log.tidy_at(start + Duration::from_secs(59));
        assert_eq!(count("warn flood left_out=940"), 0);
        log.tidy_at(start + Duration::from_secs(60));
        log.tidy_at(start + Duration::from_secs(61));
        assert_eq!(count("warn flood left_out=940"), 1);
        log.say(Level::Warn, "flood", &[], start + Duration::from_secs(62));
        assert_eq!(count("warn flood"), 61);
    }

    #[test]
    fn a_flood_that_goes_on_is_counted_each_minute() {
        let (log, kept) = log(Level::Info, false);
        let start = Instant::now();
        for second in 0..180 {
            for _ in 0..2 {
                log.say(Level::Error, "flood", &[], start + Duration::from_secs(second));
            }
        }
        let lines = kept.lines(&log);
        assert_eq!(lines.iter().filter(|line| *line == "error flood").count(), 180);
        assert_eq!(lines.iter().filter(|line| *line == "error flood left_out=60").count(), 2);
    }

    /// What the next test runs as a process of its own.
    #[test]
    #[ignore = "it ends its process"]
    fn panics_while_nobody_reads_standard_error() {
        end_at_a_panic();
        // So that the pipe's pages are full to their last bytes.
        thread::spawn(|| loop {
            eprint!("{}", "x".repeat(64));
        });
        thread::sleep(Duration::from_millis(500));
        panic!("nobody reads this");
    }

    #[test]
    fn a_panic_ends_the_process_though_nobody_reads_standard_error() {
        let words = ["--ignored", "--nocapture", "--exact", "log::tests::panics_while_nobody_reads_standard_error"];
        let mut child = Command::new(std::env::current_exe().expect("a program"));
        let child = child.args(words).stdout(Stdio::null()).stderr(Stdio::piped());
        let (mut child, end) = (child.spawn().expect("it starts"), Instant::now() + MINUTE);
        while child.try_wait().expect("a status").is_none() && Instant::now() < end {
            thread::sleep(Duration::from_millis(50));
        }
        // One that goes on is killed here.
        child.kill().expect("it is there");
        assert_eq!(child.wait().expect("a status").signal(), Some(6));
    }

    #[test]
    fn nobody_waits_for_who_reads_it_and_what_is_lost_is_counted() {
        let (log, kept) = log(Level::Info, false);
        let unread = kept.0.lock();
        log.info("first", &[]);
        while !log.shared.inner.lock().lines.is_empty() {
            thread::yield_now();
        }
        let (start, long) = (Instant::now(), [("why", "x".repeat(1000).into())]);
        for minute in 0..10 {
            (0..MOST).for_each(|_| log.say(Level::Info, "one", &long, start + minute * MINUTE));
        }
        // They had no more room, and audit lines have.
        (0..100).for_each(|_| log.audit("released", &[]));
        assert!(!log.is_stuck());
        log.shared.inner.lock().writing = Instant::now().checked_sub(2 * STUCK);
        assert!(log.is_stuck());
        drop(unread);
        let lines = kept.lines(&log);
        let count = |event: &str| lines.iter().filter(|line| line.split(' ').nth(1) == Some(event)).count() as u64;
        let lost = 10 * MOST - count("one");
        assert!(lost > 300 && count("one") > 200 && count("released") == 100, "{lost} lines were lost");
        assert_eq!(lines.last(), Some(&format!("warn log_lost lines={lost}")));
        log.info("two", &[]);
        assert_eq!(kept.lines(&log).last().map(String::as_str), Some("info two"));
        assert!(!log.is_stuck());
    }
}
