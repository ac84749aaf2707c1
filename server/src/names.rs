//! The names of consumers: what each has stored, held for it while it is down.
//!
//! A consumer keeps its data, the database's identity, its generation and a timestamp in one place of its own, in one
//! transaction. Then it says so (`consumers`), and a protection keeps the horizon at that timestamp. So it can come back
//! there after any crash. `streams` asks for the next generation, `closing` has what lags too far let go.
//!
//! ```text
//! GET /feed?consumer=c                           generation 1, held at the feed's floor 0
//! POST /consumer/c?..&generation=1&stored=7      protect 7, release the one at 0
//! GET /feed?consumer=c&from=7&..                 generation 2; the stream of generation 1 ends with `fenced`
//! ```
//!
//! 1. A name that is held has exactly one protection, at `stored`, and `stored` rises while the name stands.
//! 2. Generations rise over all names, and a deleted name's are never given again. The consumer with the name's last
//!    one is its owner.
//! 3. At most one stream has a name. A name is of the client that came with it first, also behind a restart. Of one whose
//!    client isn't known then it is the one that comes first.
//! 4. A timestamp above closed or below the horizon, an older timestamp and an older generation are refused with a
//!    reason, and change nothing.

use crate::core::Core;
use crate::gate::Who;
use crate::journal::Kept;
use crate::json::Object;
use crate::lag::Amount;
use crate::ledger::{Name, Reason};
use crate::outcome::{name_of, Outcome};
use crate::refusal::Refusal;
use crate::seats::Owner;
use crate::shares::{Client, Held, Table};
use ripsawbean::{Command, Refusal as Refused};
use std::collections::BTreeMap;
use std::ops::Bound;
use std::sync::Arc;

/// Bytes of a name, at most.
const LONGEST: usize = 64;
/// Names that are let go while the lock is held.
const LET_GO_A_TURN: usize = 64;

#[derive(Clone, Debug, Default)]
struct Consumer {
    stored: Option<u64>,
    /// What is closed at or below `stored`.
    below: Amount,
    protection: Option<u64>,
    feed: Option<u64>,
    /// 0 before its first stream.
    generation: u64,
    /// The token by which it was taken or moved last, since the server began.
    by: Option<Arc<str>>,
    /// Its place among --max-consumers.
    place: Option<Arc<Held>>,
}

impl Consumer {
    /// What a restart leaves of it.
    fn kept(&self) -> Kept {
        let owner = self.place.as_ref().and_then(|place| place.client().word());
        Kept { stored: self.stored, generation: self.generation, is_held: self.protection.is_some(), owner }
    }
}

/// All names. What needs the database is of `Core`.
#[derive(Debug)]
pub struct Names {
    places: Arc<Table>,
    all: BTreeMap<Name, Consumer>,
    generation: u64,
}

/// What `metrics` tells of a name.
pub struct Told {
    pub name: Name,
    /// Rows closed above what it has stored.
    pub lag: Option<u64>,
    pub is_held: bool,
}

/// The name that a word is.
pub fn name_in(word: &[u8]) -> Result<Name, Refusal> {
    let is_of_name = |byte: &u8| byte.is_ascii_alphanumeric() || b"._-".contains(byte);
    // In a path these two mean others, so nobody could ask for them.
    let is_a_folder = word == b"." || word == b"..";
    match std::str::from_utf8(word) {
        Ok(name) if (1..=LONGEST).contains(&word.len()) && word.iter().all(is_of_name) && !is_a_folder => {
            Ok(name.into())
        }
        _ => {
            let why = "a name has 1 to 64 letters, digits, dots, dashes and underscores, and isn't a dot or two alone";
            Err(Refusal::new(400, "name", why))
        }
    }
}

impl Names {
    pub fn new(most: usize) -> Names {
        Names { places: Table::of_places(most, "consumers", "names"), all: BTreeMap::new(), generation: 0 }
    }

    pub fn has(&self, name: &Name) -> bool {
        self.all.contains_key(name)
    }

    /// Whether a name stands, or its client has room for it.
    pub fn check_room(&self, name: &Name, client: &Client) -> Result<(), Refusal> {
        match self.has(name) {
            true => Ok(()),
            false => self.places.check(client).map_err(of_names),
        }
    }

    /// A name with which a client comes, new or as it stands.
    fn of(&self, name: &Name, client: &Client) -> Result<Consumer, Refusal> {
        let mut consumer = self.all.get(name).cloned().unwrap_or_default();
        if consumer.place.as_ref().is_none_or(|place| *place.client() == Client::SERVER) {
            match self.places.take(client) {
                Ok(place) => consumer.place = Some(place.into()),
                Err(refusal) if consumer.place.is_none() => return Err(of_names(refusal)),
                Err(_) => {}
            }
        }
        Ok(consumer)
    }

    /// So many names behind one, in their order.
    pub fn behind(&self, last: Option<&Name>, most: usize) -> Vec<Name> {
        let from = last.map_or(Bound::Unbounded, |last| Bound::Excluded(last.clone()));
        self.all.range((from, Bound::Unbounded)).take(most).map(|(name, _)| name.clone()).collect()
    }
}

/// A refusal for want of room, with the status that names have for it.
fn of_names(mut refusal: Refusal) -> Refusal {
    refusal.status = 429;
    refusal
}

impl Core {
    /// A stream has opened its feed for this name. Gives the generation, and ends the stream before.
    pub fn follow(&mut self, name: &Name, feed: u64, client: &Client) -> Result<u64, Refusal> {
        let mut consumer = self.names.of(name, client)?;
        if consumer.protection.is_none() {
            let floor = self.ledger.feeds.get(&feed).map_or(self.ledger.closed, |feed| feed.floor);
            self.hold(name, &mut consumer, floor)?;
        }
        if let Some(before) = consumer.feed.replace(feed) {
            self.stop_feed(before, Reason::Fenced);
        }
        if let Some(feed) = self.ledger.feeds.get_mut(&feed) {
            feed.consumer = Some(name.clone());
        }
        self.names.generation += 1;
        consumer.generation = self.names.generation;
        self.keep_name(name, consumer);
        Ok(self.names.generation)
    }

    /// A consumer has stored all up to a timestamp.
    pub fn store(&mut self, name: &Name, stored: u64, generation: u64, client: &Client) -> Result<(), Refusal> {
        let mut consumer = self.names.of(name, client)?;
        self.check_stored(&consumer, stored, generation)?;
        if consumer.protection.is_none() || consumer.stored < Some(stored) {
            self.hold(name, &mut consumer, stored)?;
            self.keep_name(name, consumer);
        }
        Ok(())
    }

    fn check_stored(&self, consumer: &Consumer, stored: u64, generation: u64) -> Result<(), Refusal> {
        if stored > self.ledger.closed {
            return Err(not_closed(self.ledger.closed));
        }
        if generation != consumer.generation {
            let why = "a later consumer has this name: end";
            return Err(Refusal::new(409, "fenced", why).with_number("generation", consumer.generation));
        }
        match consumer.stored {
            Some(before) if stored < before => {
                let why = "the name stands further on; delete it to go back";
                Err(Refusal::new(409, "older", why).with_number("stored", before))
            }
            _ => Ok(()),
        }
    }

    /// Whoever takes or moves a name has it from here on. Where it was another's, the log says so.
    pub fn give_name(&mut self, name: &Name, who: &Who) {
        let Some(consumer) = self.names.all.get_mut(name) else { return };
        let was = consumer.by.replace(who.shared_name());
        if let Some(was) = was.filter(|was| **was != *who.name()) {
            let fields = [("name", (&**name).into()), ("by", who.name().into()), ("of", (&*was).into())];
            self.log.audit("name_changed", &fields);
        }
    }

    pub fn forget(&mut self, name: &Name) {
        let Some(mut consumer) = self.names.all.remove(name) else { return };
        self.journal.no_name(name, self.names.generation);
        if let Some(feed) = consumer.feed {
            self.stop_feed(feed, Reason::Deleted);
        }
        self.let_go(&mut consumer);
    }

    /// What `metrics` tells of a name.
    pub fn told_of(&self, name: &Name) -> Told {
        let consumer = self.names.all.get(name);
        let lag = consumer.and_then(|consumer| self.lag_of(consumer)).map(|lag| lag.rows);
        Told { name: name.clone(), lag, is_held: consumer.is_some_and(|consumer| consumer.protection.is_some()) }
    }

    /// What is known of a name, as a line.
    pub fn line_of(&self, name: &Name) -> String {
        let consumer = self.names.all.get(name).cloned().unwrap_or_default();
        Object::new()
            .text("kind", "consumer")
            .text("name", &**name)
            .text("identity", self.identity.as_str())
            .digits("stored", consumer.stored)
            .flag("held", consumer.protection.is_some())
            .digits("generation", consumer.generation)
            .digits("protection", consumer.protection)
            .digits("feed", consumer.feed.filter(|feed| self.ledger.feeds.contains_key(feed)))
            .count("lag", self.lag_of(&consumer).map(|lag| lag.rows))
            .digits("closed", self.ledger.closed)
            .digits("horizon", self.ledger.horizon)
            .line()
    }

    /// What is closed above what a consumer has stored, also of one that was let go.
    fn lag_of(&self, consumer: &Consumer) -> Option<Amount> {
        consumer.stored.map(|_| self.ledger.rows.total - consumer.below)
    }

    // ---- what outlives a restart

    fn keep_name(&mut self, name: &Name, consumer: Consumer) {
        self.names.all.insert(name.clone(), consumer);
        self.tell_journal(name);
    }

    fn tell_journal(&mut self, name: &Name) {
        if let Some(consumer) = self.names.all.get(name) {
            self.journal.name(name, consumer.kept());
        }
    }

    /// The head of a new series of the journal.
    pub fn journal_head(&self) -> Vec<u8> {
        let names = self.names.all.iter().map(|(name, consumer)| (name.to_string(), consumer.kept()));
        self.journal.head(&self.identity, self.names.generation, names)
    }

    /// Names as they were: those that were held are held again.
    pub fn recover_names(&mut self, generation: u64, names: BTreeMap<String, Kept>) {
        self.names.generation = generation;
        for (name, Kept { stored, generation, is_held, owner }) in names {
            let owner = owner.and_then(|word| Client::in_word(&word)).unwrap_or(Client::SERVER);
            let (name, mut place): (Name, _) = (name.into(), self.names.places.begin(&owner));
            place.set(1);
            let mut consumer = Consumer { stored, generation, place: Some(place.into()), ..Consumer::default() };
            match stored.filter(|_| is_held).map(|stored| self.hold(&name, &mut consumer, stored)) {
                Some(Err(_)) => self.shout(&format!("{name} isn't held any more at {stored:?}")),
                Some(Ok(())) => {}
                None => {
                    let total = self.ledger.rows.total;
                    consumer.below = stored.map_or(total, |stored| total - self.ledger.rows.above(stored));
                }
            }
            self.names.all.insert(name, consumer);
        }
    }

    // ---- protections that move

    /// Protects the new timestamp, and then lets the old one go.
    fn hold(&mut self, name: &Name, consumer: &mut Consumer, stored: u64) -> Result<(), Refusal> {
        let id = match self.ask(Owner::Server, Command::Protect { t: stored }) {
            Ok(Outcome::Protected { id, .. }) => id,
            Ok(Outcome::Refused(refused)) if refused != Refused::NoMemory => {
                let why = "versions there may be gone: begin anew";
                return Err(Refusal::new(409, name_of(refused), why).with_number("horizon", self.ledger.horizon));
            }
            Ok(_) | Err(_) => return Err(Refusal::no_memory()),
        };
        self.let_go(consumer);
        consumer.below = self.ledger.rows.total - self.ledger.rows.above(stored);
        consumer.stored = Some(stored);
        consumer.protection = Some(id);
        if let Some(protection) = self.ledger.protections.get_mut(&id) {
            protection.consumer = Some(name.clone());
        }
        Ok(())
    }

    fn let_go(&mut self, consumer: &mut Consumer) {
        if let Some(id) = consumer.protection.take() {
            self.release(id);
        }
    }

    /// Lets go of names above which more than this is closed, a few at a time: whether there are more. They stand,
    /// unheld, so that all can see it. `closing` calls it each second.
    pub fn let_go_names_beyond(&mut self, most: Amount) -> bool {
        let held = self.names.all.iter().filter(|(_, consumer)| consumer.protection.is_some());
        let mut late = held.filter(|(_, consumer)| self.lag_of(consumer).is_some_and(|lag| lag.exceeds(most)));
        let names: Vec<Name> = late.by_ref().take(LET_GO_A_TURN).map(|(name, _)| name.clone()).collect();
        let are_more = late.next().is_some();
        for name in names {
            if let Some(id) = self.names.all.get_mut(&name).and_then(|consumer| consumer.protection.take()) {
                self.log.warn("name_let_go", &[("name", (&*name).into())]);
                self.release(id);
                self.tell_journal(&name);
            }
        }
        are_more
    }
}

/// The refusal of a timestamp that is above closed.
pub fn not_closed(closed: u64) -> Refusal {
    Refusal::new(409, "notclosed", "this timestamp is above closed").with_number("closed", closed)
}

#[cfg(test)]
mod tests {
    use super::*;
    use crate::gate::Right;
    use crate::testing::{core, put, session, IDENTITY};
    use ripsawbean::Span;

    const ONE: Client = Client::SERVER;

    fn name(word: &str) -> Name {
        name_in(word.as_bytes()).expect("a name")
    }

    /// The number of a new feed of the server's.
    fn opened(core: &mut Core) -> u64 {
        let cursor = core.ledger.closed;
        match core.ask(Owner::Server, Command::Open { span: Span::ALL, cursor }) {
            Ok(Outcome::Opened { feed, .. }) => feed,
            other => panic!("{other:?}"),
        }
    }

    fn followed(core: &mut Core, word: &str) -> u64 {
        let feed = opened(core);
        core.follow(&name(word), feed, &ONE).expect("it is followed")
    }

    fn refused<T>(result: Result<T, Refusal>) -> (u16, &'static str) {
        result.map_or_else(|refusal| (refusal.status, refusal.error), |_| (200, ""))
    }

    #[test]
    fn names_are_letters_digits_dots_dashes_and_underscores() {
        let longest = "x".repeat(64);
        for word in ["a", "A.b-c_9", "...", ".a", longest.as_str()] {
            assert!(name_in(word.as_bytes()).is_ok(), "{word}");
        }
        let longer = "x".repeat(65);
        for word in ["", ".", "..", "a/b", "a b", "\u{e4}", longer.as_str()] {
            assert_eq!(refused(name_in(word.as_bytes())), (400, "name"), "{word}");
        }
        assert_eq!(refused(name_in(b"\xe4")), (400, "name"));
    }

    #[test]
    fn names_have_a_limit_and_those_that_stand_keep_their_place() {
        let mut core = core(&["--max-consumers", "1"]);
        assert!(core.names.check_room(&name("a"), &ONE).is_ok());
        followed(&mut core, "a");
        assert!(core.names.check_room(&name("a"), &ONE).is_ok());
        assert_eq!(refused(core.names.check_room(&name("b"), &ONE)), (429, "consumers"));
        core.forget(&name("b"));
        core.forget(&name("a"));
        assert!(core.names.check_room(&name("b"), &ONE).is_ok());
    }

    #[test]
    fn generations_rise_over_all_names_and_the_stream_before_is_fenced() {
        let mut core = core(&[]);
        let first = opened(&mut core);
        assert_eq!(core.follow(&name("a"), first, &ONE).ok(), Some(1));
        assert_eq!(followed(&mut core, "b"), 2);
        assert_eq!(followed(&mut core, "a"), 3);
        assert_eq!(core.ledger.take_end(first).map(|ended| ended.reason), Some(Reason::Fenced));
        core.forget(&name("a"));
        assert_eq!(followed(&mut core, "a"), 4);
        assert_eq!(core.shouts, 0);
    }

    #[test]
    fn the_horizon_is_held_at_what_was_stored() {
        let mut core = core(&[]);
        let mut session = session(&mut core);
        put(&mut core, &mut session, &[("a", "1"), ("a", "2"), ("a", "3")]);
        core.store(&name("a"), 1, 0, &ONE).expect("it is held");
        core.store(&name("a"), 2, 0, &ONE).expect("it moves up");
        core.store(&name("a"), 2, 0, &ONE).expect("a repeated one changes nothing");
        let held: Vec<(u64, Option<&str>)> =
            core.ledger.protections.values().map(|one| (one.timestamp, one.consumer.as_deref())).collect();
        assert_eq!(held, [(2, Some("a"))]);
        let told = core.line_of(&name("a"));
        let expected = format!(
            "{{\"kind\":\"consumer\",\"name\":\"a\",\"identity\":\"{IDENTITY}\",\"stored\":\"2\",\"held\":true,\
             \"generation\":\"0\",\"protection\":\"{}\",\"feed\":null,\"lag\":1,\"closed\":\"3\",\"horizon\":\"0\"}}\n",
            core.ledger.protections.keys().next().expect("one stands")
        );
        assert_eq!(told, expected);
        core.forget(&name("a"));
        assert!(core.ledger.protections.is_empty());
        assert!(core.line_of(&name("a")).contains("\"stored\":null,\"held\":false,\"generation\":\"0\""));
        assert_eq!(core.shouts, 0);
    }

    #[test]
    fn what_leads_nowhere_is_refused_and_changes_nothing() {
        let mut core = core(&[]);
        let mut session = session(&mut core);
        put(&mut core, &mut session, &[("a", "1"), ("a", "2"), ("a", "3")]);
        followed(&mut core, "a");
        let before = core.line_of(&name("a"));
        for (stored, generation, expected) in
            [(4, 1, "notclosed"), (3, 0, "fenced"), (3, 2, "fenced"), (2, 1, "older"), (4, 2, "notclosed")]
        {
            assert_eq!(
                refused(core.store(&name("a"), stored, generation, &ONE)),
                (409, expected),
                "{stored} {generation}"
            );
        }
        assert_eq!(core.line_of(&name("a")), before);
        assert!(matches!(
            core.ask(Owner::Server, Command::Collect { to: 3 }),
            Ok(Outcome::Collected { horizon: 3, .. })
        ));
        assert_eq!(refused(core.store(&name("b"), 2, 0, &ONE)), (409, "belowhorizon"));
        assert_eq!(core.names.all.len(), 1);
    }

    #[test]
    fn names_that_lag_too_far_are_let_go_and_stand() {
        let mut core = core(&[]);
        for at in 0..LET_GO_A_TURN + 1 {
            core.store(&name(&format!("late{at}")), 0, 0, &ONE).expect("it is held");
        }
        let mut session = session(&mut core);
        put(&mut core, &mut session, &[("a", "1"), ("a", "2"), ("a", "3")]);
        core.store(&name("early"), 1, 0, &ONE).expect("it is held");
        let most = Amount { rows: 2, bytes: u64::MAX };
        assert!(core.let_go_names_beyond(most));
        assert!(!core.let_go_names_beyond(most));
        assert_eq!(core.ledger.protections.len(), 1);
        assert!(core.line_of(&name("late0")).contains("\"stored\":\"0\",\"held\":false"));
        assert!(core.line_of(&name("late0")).contains("\"lag\":3"));
        assert!(core.line_of(&name("early")).contains("\"held\":true"));
        assert!(core.let_go_names_beyond(Amount { rows: 5, bytes: 1 }) || core.ledger.protections.is_empty());
        assert_eq!(core.shouts, 0);
    }

    #[test]
    fn the_log_says_who_changes_the_name_of_another() {
        let (mut core, said) = crate::testing::core_and_log(&[]);
        let [one, two] = ["one", "two"].map(|token| Who::of(token, &[]));
        core.give_name(&name("none"), &one);
        followed(&mut core, "a");
        for who in [&one, &one, &two, &two, &one] {
            core.give_name(&name("a"), who);
        }
        core.log.flush();
        let text = said.text();
        let told: Vec<&str> = text.lines().filter_map(|line| Some(line.split_once(" info ")?.1)).collect();
        assert_eq!(told, ["name_changed name=a by=two of=one", "name_changed name=a by=one of=two"]);
    }

    #[test]
    fn names_are_their_clients_behind_each_restart() {
        let [one, other] =
            ["one", "other"].map(|token| Client::new([192, 0, 2, 1].into(), &Who::of(token, &[Right::Write])));
        let mut before = core(&["--max-consumers", "64"]);
        for at in 0..48 {
            before.store(&name(&format!("n{at}")), 0, 0, &one).expect("it is held");
        }
        for _ in 0..2 {
            let names = before.names.all.iter().map(|(name, consumer)| (name.to_string(), consumer.kept())).collect();
            before = core(&["--max-consumers", "64"]);
            before.recover_names(0, names);
            assert_eq!(refused(before.store(&name("more"), 0, 0, &one)), (429, "consumers"));
            let at = before.names.all.len();
            before.store(&name(&format!("other{at}")), 0, 0, &other).expect("the last quarter is for others");
        }
    }

    #[test]
    fn names_are_found_one_behind_another() {
        let mut names = Names::new(10);
        for word in ["c", "a", "b"] {
            names.all.insert(name(word), Consumer::default());
        }
        let told = |found: Vec<Name>| found.iter().map(|name| name.to_string()).collect::<Vec<_>>();
        assert_eq!(told(names.behind(None, 2)), ["a", "b"]);
        assert_eq!(told(names.behind(Some(&name("b")), 2)), ["c"]);
        assert_eq!(told(names.behind(Some(&name("bb")), 2)), ["c"]);
        assert_eq!(names.behind(Some(&name("c")), 2).len(), 0);
    }
}
