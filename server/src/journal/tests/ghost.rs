//! The judge of the model: one database that lives through all crashes, and tells what may be answered.
//!
//! It is given the calls of each life in their order. A commit that isn't durable at the crash is an `abort` there, and so
//! is a write that came too late of which nobody was told, because it may rest on a read that nobody was told of either.
//! Reads that nobody was told of are left out, and so are collections that aren't durable. Then comes what a crash is:
//! `closehard` at the mark, and the end of all feeds and protections. So each answer that was told has to be the one that
//! this database gives.

use ripsawbean::Database;
use std::collections::{BTreeMap, BTreeSet};

/// What of a life is known at its end.
#[derive(Default)]
pub struct Known {
    /// Positions of events of which someone was told.
    pub told: BTreeSet<u64>,
    /// Timestamps of commits that are durable, and of collections.
    pub commits: BTreeSet<u64>,
    pub collections: BTreeSet<u64>,
}

pub struct Ghost {
    database: Database,
    /// Its own number of each feed and protection of this life.
    feeds: BTreeMap<u64, u64>,
    protections: BTreeMap<u64, u64>,
    /// Those that stand.
    open: BTreeSet<u64>,
    held: BTreeSet<u64>,
    pub compared: usize,
}

struct Event<'a> {
    position: u64,
    seat: &'a str,
    command: &'a str,
    words: Vec<&'a str>,
    answer: &'a str,
    /// The lines behind it.
    lines: &'a str,
}

impl<'a> Event<'a> {
    fn of(text: &'a str) -> Event<'a> {
        let (first, lines) = text.split_once('\n').expect("an event has a line");
        let (called, answer) = first.rsplit_once(" => ").expect("it has an answer");
        let mut words = called.splitn(3, ' ');
        let position = words.next().and_then(|word| word.parse().ok()).expect("a position");
        let (seat, command) = (words.next().expect("a seat"), words.next().expect("a command"));
        Event { position, seat, command, words: command.split(' ').collect(), answer, lines }
    }

    fn number(&self, at: usize) -> u64 {
        self.words.get(at).and_then(|word| word.parse().ok()).unwrap_or(0)
    }

    fn answered(&self) -> (&'a str, u64) {
        let (word, rest) = self.answer.split_once(' ').unwrap_or((self.answer, ""));
        (word, rest.split(' ').next().and_then(|number| number.parse().ok()).unwrap_or(0))
    }
}

/// The texts of events, one by one.
pub fn events_in(text: &str) -> Vec<String> {
    let mut events: Vec<String> = Vec::new();
    for line in text.split_inclusive('\n') {
        match line.starts_with(|first: char| first.is_ascii_digit()) {
            true => events.push(line.to_string()),
            false => events.last_mut().expect("an event comes first").push_str(line),
        }
    }
    events
}

impl Ghost {
    pub fn new() -> Ghost {
        Ghost {
            database: Database::open(16).expect("it opens"),
            feeds: BTreeMap::new(),
            protections: BTreeMap::new(),
            open: BTreeSet::new(),
            held: BTreeSet::new(),
            compared: 0,
        }
    }

    /// Goes through a life: what was answered that can't be.
    pub fn live(&mut self, events: &[String], known: &Known) -> Result<(), String> {
        events.iter().try_for_each(|text| self.take(&Event::of(text), known))
    }

    fn take(&mut self, event: &Event<'_>, known: &Known) -> Result<(), String> {
        let is_told = known.told.contains(&event.position);
        let Some(command) = self.command_of(event, known, is_told) else { return Ok(()) };
        let (answer, lines) = self.call(&format!("{} {command}\n", event.seat))?;
        self.note(event, &answer);
        let is_same = match event.answered().0 {
            // Numbers are another's.
            word @ ("opened" | "protected") => answer.starts_with(word),
            _ => answer == event.answer && lines == event.lines,
        };
        self.compared += usize::from(is_told);
        if is_told && !is_same {
            return Err(format!(
                "{} {} was answered {}{}, and is {answer}{lines}",
                event.seat, event.command, event.answer, event.lines
            ));
        }
        Ok(())
    }

    /// The call that stands for an event, if one does.
    fn command_of(&self, event: &Event<'_>, known: &Known, is_told: bool) -> Option<String> {
        let as_it_is = Some(event.command.to_string());
        let numbered = |numbers: &BTreeMap<u64, u64>| {
            let number = numbers.get(&event.number(1)).copied().unwrap_or(u64::MAX);
            let rest = event.words.get(2).map_or(String::new(), |word| format!(" {word}"));
            Some(format!("{} {number}{rest}", event.words[0]))
        };
        let abort = Some(format!("abort {}", event.number(1)));
        match (event.words[0], event.answered()) {
            ("commit", ("committed", 1..)) if !known.commits.contains(&event.number(1)) => abort,
            ("put" | "del", ("toolate", _)) if !is_told => abort,
            ("get" | "scan" | "readat" | "scanat" | "stats", _) if !is_told => None,
            ("collect", ("collected", horizon)) if !is_told && !known.collections.contains(&horizon) => None,
            ("poll" | "cancel", _) => numbered(&self.feeds),
            ("release", _) => numbered(&self.protections),
            _ => as_it_is,
        }
    }

    fn note(&mut self, event: &Event<'_>, answer: &str) {
        let own = answer.split(' ').nth(1).and_then(|number| number.parse().ok()).unwrap_or(0);
        let (word, number) = event.answered();
        match answer.split(' ').next().unwrap_or("") {
            "opened" => {
                self.open.insert(own);
                if word == "opened" {
                    self.feeds.insert(number, own);
                }
            }
            "protected" => {
                self.held.insert(own);
                if word == "protected" {
                    self.protections.insert(number, own);
                }
            }
            "cancelled" => drop(self.open.remove(&self.feeds[&event.number(1)])),
            "released" => drop(self.held.remove(&self.protections[&event.number(1)])),
            _ => {}
        }
    }

    /// The crash: closed stands at the mark, and nothing else stands.
    pub fn crash(&mut self, mark: u64) -> Result<(), String> {
        let (answer, _) = self.call(&format!("0 closehard {mark}\n"))?;
        if !answer.starts_with(&format!("closed {mark} ")) {
            return Err(format!("closed is {mark} after a crash, and {answer} before it"));
        }
        for feed in std::mem::take(&mut self.open) {
            self.call(&format!("0 cancel {feed}\n"))?;
        }
        for protection in std::mem::take(&mut self.held) {
            self.call(&format!("0 release {protection}\n"))?;
        }
        (self.feeds, self.protections) = (BTreeMap::new(), BTreeMap::new());
        Ok(())
    }

    /// The answer, and the lines behind it.
    fn call(&mut self, line: &str) -> Result<(String, String), String> {
        let event = self.database.call(line).map_err(|error| format!("{line}: {error}"))?;
        let lines = event.text().split_once('\n').map_or("", |(_, lines)| lines);
        Ok((event.answer().to_string(), lines.to_string()))
    }
}
