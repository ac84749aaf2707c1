//! Replicas that follow the feeds of random histories. The environment variable RANDOM_FEEDS, 200 where it isn't set,
//! says how many feeds.

use ripsawbean::{Command, Database, Message, Replica, Row, Span, TakeError};
use std::collections::BTreeMap;

type Rows = Vec<(Vec<u8>, Vec<u8>)>;

const KEYS: [&[u8]; 5] = [b"a", b"b", b"c", b"d d", b"eeeeeeeeeeeeeeeeeeeeeeeeeeeeee"];

/// What a replica has taken, by the definitions, read plainly.
struct Reading {
    span: Span<'static>,
    cursor: u64,
    resolved: u64,
    through: u64,
    complete: Option<u64>,
    last: Option<Row>,
    rows: BTreeMap<Vec<u8>, Vec<u8>>,
}

impl Reading {
    /// An initial feed tells the rows at the cursor as messages.
    fn of_initial(span: Span<'static>, cursor: u64) -> Reading {
        let start = cursor.saturating_sub(1);
        Reading { span, cursor, resolved: start, through: start, complete: None, last: None, rows: BTreeMap::new() }
    }

    fn with_rows(span: Span<'static>, cursor: u64, rows: &Rows) -> Reading {
        let rows = rows.iter().cloned().collect();
        Reading { span, cursor, resolved: cursor, through: cursor, complete: Some(cursor), last: None, rows }
    }

    fn fault(&self, message: &Message) -> Option<TakeError> {
        match message {
            Message::Resolved(t) => {
                let reaches = self.last.as_ref().is_none_or(|last| last.updated <= *t);
                (*t <= self.resolved || !reaches).then_some(TakeError::ResolvedBack)
            }
            Message::Row(row) => {
                let place = (row.updated, &row.key);
                let is_after = self.last.as_ref().is_none_or(|last| (last.updated, &last.key) < place);
                let is_inside =
                    self.span.lo <= row.key.as_slice() && self.span.hi.is_none_or(|hi| row.key.as_slice() < hi);
                if row.updated <= self.resolved || !is_after {
                    Some(TakeError::NotAfter)
                } else {
                    (!is_inside).then_some(TakeError::OutsideSpan)
                }
            }
        }
    }

    fn ready(&self, message: &Message) -> Option<u64> {
        match message {
            Message::Row(row) if self.fault(message).is_none() => {
                let is_first = self.last.as_ref().is_none_or(|last| last.updated != row.updated);
                (row.updated > self.cursor && is_first).then(|| row.updated - 1)
            }
            _ => None,
        }
    }

    fn take(&mut self, message: &Message) {
        match message {
            Message::Resolved(t) => {
                (self.resolved, self.through, self.complete) = (*t, *t, Some(*t));
            }
            Message::Row(row) => {
                match &row.after {
                    Some(value) => self.rows.insert(row.key.clone(), value.clone()),
                    None => self.rows.remove(&row.key),
                };
                (self.through, self.complete, self.last) = (row.updated - 1, None, Some(row.clone()));
            }
        }
    }

    fn rows(&self) -> Rows {
        self.rows.iter().map(|(key, value)| (key.clone(), value.clone())).collect()
    }
}

/// A replica beside the plain reading of what it is given.
struct Follower {
    replica: Replica,
    reading: Reading,
}

impl Follower {
    /// Of the feed that the command opens, with the rows at its cursor where it is no initial feed.
    fn new(opening: Command<'static>, rows: &Rows) -> Follower {
        let (replica, reading) = match opening {
            Command::Open { span, cursor } | Command::OpenEvery { span, cursor, .. } => {
                let rows_lent = rows.iter().map(|(key, value)| (key, value));
                let replica = Replica::begin(opening, rows_lent).expect("it begins");
                (replica, Reading::with_rows(span, cursor, rows))
            }
            Command::OpenInitial { span, cursor } | Command::OpenInitialEvery { span, cursor, .. } => {
                (Replica::open(opening).expect("it opens"), Reading::of_initial(span, cursor))
            }
            other => panic!("{other} opens no feed"),
        };
        let mut follower = Follower { replica, reading };
        follower.see();
        follower
    }

    /// Gives a message, which is taken or refused as the definitions say.
    fn give(&mut self, message: &Message) -> Option<TakeError> {
        let fault = self.reading.fault(message);
        assert_eq!(self.replica.ready(message), Ok(self.reading.ready(message)));
        assert_eq!(self.replica.take(message).err(), fault, "{message}");
        if fault.is_none() {
            self.reading.take(message);
        }
        self.see();
        fault
    }

    fn see(&mut self) {
        let reading = &self.reading;
        assert_eq!(self.replica.complete_through(), (reading.through >= reading.cursor).then_some(reading.through));
        assert_eq!(self.replica.complete_at(), reading.complete);
        assert_eq!(self.replica.rows().expect("rows"), reading.rows());
    }
}

struct Dice(u64);

impl Dice {
    fn roll(&mut self, sides: u64) -> u64 {
        self.0 = self.0.wrapping_mul(6364136223846793005).wrapping_add(1442695040888963407);
        (self.0 >> 33) % sides
    }

    fn one_in(&mut self, sides: u64) -> bool {
        self.roll(sides) == 0
    }

    fn key(&mut self) -> &'static [u8] {
        KEYS[self.roll(5) as usize]
    }
}

#[derive(Debug, Default)]
struct Counts {
    feeds: u64,
    resumed: u64,
    messages: u64,
    scans: u64,
    not_after: u64,
    outside_span: u64,
    resolved_back: u64,
}

/// One feed at a time, which two replicas follow. The steady one takes each message once, in order; wherever it is to
/// be the map, its rows are those of a scan. The shaken one has messages left out, repeated, late, or of another key.
struct Followed {
    feed: u64,
    span: Span<'static>,
    went_on: Option<u64>,
    steady: Follower,
    shaken: Follower,
    late: Vec<Message>,
}

impl Followed {
    fn new(
        db: &mut Database,
        opening: Command<'static>,
        span: Span<'static>,
        rows: &Rows,
        went_on: Option<u64>,
    ) -> Followed {
        let feed = db.make(1, opening).expect("a call").number().expect("it is opened");
        let (steady, shaken) = (Follower::new(opening, rows), Follower::new(opening, rows));
        Followed { feed, span, went_on, steady, shaken, late: Vec::new() }
    }

    fn open(db: &mut Database, dice: &mut Dice, cursor: u64) -> Followed {
        let (lo, hi) = (dice.key(), dice.key());
        let span = Span { lo: if dice.one_in(2) { lo } else { b"" }, hi: Some(hi).filter(|_| dice.one_in(2)) };
        let opening = match dice.roll(4) {
            0 => Command::Open { span, cursor },
            1 => Command::OpenInitial { span, cursor },
            2 => Command::OpenEvery { span, cursor, gap: 1 + dice.roll(7) },
            _ => Command::OpenInitialEvery { span, cursor, gap: 1 + dice.roll(7) },
        };
        let rows = scan(db, span, cursor);
        Followed::new(db, opening, span, &rows, None)
    }

    /// A new feed and new replicas, from where the steady one was told all, also between resolved messages. Some of its
    /// rows may be of the next timestamp, so there they are no map.
    fn go_on(&mut self, db: &mut Database) -> bool {
        let Some(cursor) = self.steady.replica.complete_through() else { return false };
        let rows = self.steady.replica.rows().expect("rows");
        let next = Followed::new(db, Command::Open { span: self.span, cursor }, self.span, &rows, Some(cursor));
        self.cancel(db);
        *self = next;
        true
    }

    fn cancel(&self, db: &mut Database) {
        db.make(1, Command::Cancel { feed: self.feed }).expect("a call");
    }

    fn poll(&mut self, db: &mut Database, dice: &mut Dice, counts: &mut Counts) {
        let max = [0, 1, 2, 100][dice.roll(4) as usize];
        let told: Vec<_> = db.make(1, Command::Poll { feed: self.feed, max }).expect("a call").messages().collect();
        for message in told {
            let ready = self.steady.reading.ready(&message);
            if ready.is_some() && ready != self.went_on {
                self.compare(db, ready, counts);
            }
            assert_eq!(self.steady.give(&message), None);
            if let Message::Resolved(t) = message {
                self.compare(db, Some(t), counts);
            }
            self.shake(message, dice, counts);
            counts.messages += 1;
        }
    }

    fn compare(&mut self, db: &mut Database, at: Option<u64>, counts: &mut Counts) {
        let rows = scan(db, self.span, at.expect("a timestamp"));
        assert_eq!(self.steady.replica.rows().expect("rows"), rows);
        for key in KEYS {
            let found = rows.iter().find(|row| row.0 == key).map(|row| row.1.as_slice());
            assert_eq!(self.steady.replica.get(key), Ok(found));
        }
        counts.scans += 1;
    }

    fn shake(&mut self, message: Message, dice: &mut Dice, counts: &mut Counts) {
        let mut given = vec![message.clone()];
        match (dice.roll(8), message) {
            (0, _) => self.late.append(&mut given),
            (1, message) => given.push(message),
            (2, _) if !self.late.is_empty() => {
                given.insert(0, self.late[dice.roll(self.late.len() as u64) as usize].clone())
            }
            (3, Message::Row(row)) => given.insert(0, Message::Row(Row { key: dice.key().to_vec(), ..row })),
            _ => {}
        }
        for one in given {
            match self.shaken.give(&one) {
                Some(TakeError::NotAfter) => counts.not_after += 1,
                Some(TakeError::OutsideSpan) => counts.outside_span += 1,
                Some(TakeError::ResolvedBack) => counts.resolved_back += 1,
                _ => {}
            }
        }
    }
}

fn scan(db: &mut Database, span: Span<'_>, t: u64) -> Rows {
    let event = db.make(0, Command::ScanAt { t, span }).expect("a call");
    assert_eq!(event.refusal(), None);
    event.rows().collect()
}

fn commit(db: &mut Database, dice: &mut Dice, ts: u64) {
    db.make(0, Command::Begin { ts }).expect("a call");
    for _ in 0..dice.roll(4) {
        let (key, value) = (dice.key(), [dice.roll(3) as u8]);
        let command = if dice.one_in(3) { Command::Del { ts, key } } else { Command::Put { ts, key, value: &value } };
        db.make(0, command).expect("a call");
    }
    db.make(0, Command::Commit { ts }).expect("a call");
}

fn history(dice: &mut Dice, counts: &mut Counts) {
    let mut db = Database::open(1 + dice.roll(4) as u32).expect("it opens");
    let (mut ts, mut closed) = (0, 0);
    let mut followed: Option<Followed> = None;
    for _ in 0..40 {
        ts += 1 + dice.roll(3);
        commit(&mut db, dice, ts);
        if dice.one_in(2) {
            closed = db.make(0, Command::Close { to: ts }).expect("a call").number().expect("it is closed");
        }
        if let Some(old) = followed.take_if(|_| dice.one_in(20)) {
            old.cancel(&mut db);
        }
        let it = followed.get_or_insert_with(|| {
            counts.feeds += 1;
            Followed::open(&mut db, dice, closed)
        });
        it.poll(&mut db, dice, counts);
        if dice.one_in(10) && it.go_on(&mut db) {
            counts.feeds += 1;
            counts.resumed += 1;
        }
        if dice.one_in(5) {
            db.make(0, Command::Collect { to: closed }).expect("a call");
        }
    }
}

#[test]
fn replicas_have_what_a_scan_finds() {
    let wanted = std::env::var("RANDOM_FEEDS").map_or(200, |word| word.parse().expect("RANDOM_FEEDS is a number"));
    let (mut dice, mut counts) = (Dice(1), Counts::default());
    while counts.feeds < wanted {
        history(&mut dice, &mut counts);
    }
    println!("{counts:?}");
    assert!(counts.resumed > 0 && counts.not_after > 0 && counts.outside_span > 0 && counts.resolved_back > 0);
    assert!(counts.scans > 3 * wanted);
}
