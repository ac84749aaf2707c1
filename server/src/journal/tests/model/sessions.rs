//! What sessions say, line by line.

use super::*;
use crate::lines::Lines;

const LINES: &str = "begin,begin,begin,begin,begin FREE,begin FAR,put . KEY VALUE,put . KEY VALUE,put . KEY VALUE,\
    put . KEY VALUE,put TS KEY VALUE,del . KEY,get . KEY,get . KEY,get . KEY,get TS KEY,scan . - -,scan . b d,commit .,\
    commit .,commit .,commit .,abort .,readat AT KEY,scanat AT - -,stats,open - - AT,poll FEED 3,close TO,closehard TO,\
    collect AT";

impl Model {
    pub(super) fn line(&mut self) {
        let mut at = self.dice.below(SESSIONS as u64) as usize;
        // No transaction is undecided for long.
        let is_late = self.dice.one_in(2);
        let life = self.life();
        let oldest = life.core.ledger.undecided.iter().next().map(|(ts, one)| (*ts, one.owner.seat()));
        let oldest = oldest.filter(|_| is_late && life.core.ledger.undecided.len() > 3);
        if let Some((_, seat)) = oldest {
            at = life.clients.iter().position(|client| client.session.seat == seat).unwrap_or(at);
        }
        if let Some((_, ticket)) = &life.clients[at].waiting {
            if life.core.journal.durable().has(*ticket) {
                let (lines, _) = life.clients[at].waiting.take().expect("it waits");
                self.turn(at, lines);
            }
            return;
        }
        let line = match oldest {
            Some((ts, _)) => format!("{} {ts}\n", if self.dice.one_in(4) { "abort" } else { "commit" }),
            None => self.drawn_line(at),
        };
        self.call(at, line);
    }

    fn drawn_line(&mut self, at: usize) -> String {
        self.values += 1;
        let (values, dice) = (self.values, &mut self.dice);
        let life = self.life.as_ref().expect("a life has begun");
        let ledger = &life.core.ledger;
        let undecided: Vec<u64> = ledger.undecided.keys().copied().collect();
        let free = ledger.closed + 1 + dice.below(8);
        let far = ledger.greatest.max(ledger.closed) + 60_000 + dice.below(20_000);
        let feeds = &life.clients[at].feeds;
        let lines: Vec<&str> = LINES.split(',').collect();
        let mut line = dice.of(&lines).to_string() + "\n";
        // What closes much is rare.
        if line.starts_with("close") && !dice.one_in(4) {
            line = "begin\n".into();
        }
        let to = if dice.one_in(3) { far } else { ledger.closed + dice.below(4) };
        for (name, word) in [
            ("FREE", free.to_string()),
            ("FAR", far.to_string()),
            ("TS", (if undecided.is_empty() { free } else { *dice.of(&undecided) }).to_string()),
            ("AT", (ledger.closed - dice.below(5).min(ledger.closed)).to_string()),
            ("TO", to.to_string()),
            ("FEED", (if feeds.is_empty() { 99 } else { *dice.of(feeds) }).to_string()),
            ("KEY", (*dice.of(&KEYS)).to_string()),
            ("VALUE", values.to_string()),
        ] {
            line = line.replace(name, &word);
        }
        line
    }

    pub(super) fn call(&mut self, at: usize, line: String) {
        self.turn(at, Lines::new(line.into_bytes()));
    }

    fn turn(&mut self, at: usize, mut lines: Lines) {
        let life = self.life();
        let (before, far) = (life.core.transcript.next(), Instant::now() + HOUR);
        let turn = lines.turn(&mut life.core, &mut life.clients[at].session, far).expect("there is memory");
        if let crate::door::Turn::Until(ticket) = turn {
            life.clients[at].waiting = Some((lines, ticket));
            return;
        }
        let rests = lines.rests;
        let client = &mut life.clients[at];
        client.untold.push_back(Untold { events: before..life.core.transcript.next(), rests });
        let answer = String::from_utf8(lines.answers).expect("text");
        if let Some(feed) = answer.split("=> opened ").nth(1).and_then(|word| word.trim().parse().ok()) {
            client.feeds.push(feed);
        }
        self.settle(before);
    }

    /// What the server does behind each call. Notes on what commits and collections rest.
    pub(super) fn settle(&mut self, before: u64) {
        let life = self.life();
        life.core.settle(Instant::now());
        let (text, _) = life.core.transcript.piece(before, u64::MAX, usize::MAX).expect("all are kept");
        let all = life.core.journal.all();
        for line in std::str::from_utf8(&text).expect("text").lines() {
            let words: Vec<&str> = line.split(' ').collect();
            let number = |at: usize| words.get(at).and_then(|word: &&str| word.parse().ok()).unwrap_or(0);
            match words.get(2..5) {
                Some(["commit", _, "=>"]) if line.contains("=> committed") => life.commits.push((number(3), all)),
                Some(["collect", _, "=>"]) if line.contains("=> collected") => {
                    life.collections.push((number(6), all));
                }
                _ => {}
            }
        }
    }
}
