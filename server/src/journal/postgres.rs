//! A journal in PostgreSQL, for whoever outgrows one machine: each batch is a row, written in a transaction of its own.
//! PostgreSQL's replication keeps it on several machines.
//!
//! ```text
//! ripsawbean_journal (kind, series, piece, bytes)     the pieces of each series; a checkpoint counts once it has a row
//!                                                     of kind `finished`, whose piece is the number of its pieces
//! ripsawbean_owner (epoch, beat, lease, ended)        who may write: each server that starts raises the epoch, and while it
//!                                                     has nothing to write, the beat
//! ```
//!
//! 1. A server holds an advisory lock as long as its connection lives. Another one asks for it again and again: it is a
//!    standby. Where the owner writes nothing for `SILENCE`, not even that it is there, the standby ends its connection.
//! 2. Each statement changes rows only under the server's own epoch. So one that was cut off from the lock, and doesn't
//!    know it yet, changes nothing, also by what it has sent before and PostgreSQL sees late: else it would delete the
//!    pieces of its successor's checkpoint, behind which the journal before it goes.
//! 3. A checkpoint is finished where all its pieces are there, and read where they still are.
//! 4. The owner answers while its `lease` is fresh. Who raises the epoch answers once the lease of the one before is over
//!    for sure, or where that one has written that it has ended. So no two servers answer at a time, whichever of several
//!    PostgreSQLs each of them is tied to.

mod session;
mod tls;

use super::recovery::{found, Error, Found, Reading};
use super::store::{Draft, Kind, Place, Series, Store};
use super::Failure;
use session::{failure, Address, Session, HOST};
use std::io::{self, Read};
use std::sync::Arc;
use std::thread::sleep;
use std::time::{Duration, Instant};
use tokio_postgres::types::ToSql;
use tokio_postgres::Row;

/// How often a server that waits asks.
const AGAIN: Duration = Duration::from_millis(250);
/// An owner that has written nothing for so long is taken for lost, and a PostgreSQL that gives no piece.
const SILENCE: Duration = Duration::from_secs(10);
/// The advisory lock.
const LOCK: i64 = 0x7269_7073_6177;
/// Pieces of one query, with the one before them: some megabytes.
const PIECES: i64 = 17;
const TABLES: &str = "
    CREATE TABLE IF NOT EXISTS ripsawbean_owner (one int PRIMARY KEY CHECK (one = 1), epoch bigint NOT NULL);
    ALTER TABLE ripsawbean_owner ADD COLUMN IF NOT EXISTS beat bigint NOT NULL DEFAULT 0,
        ADD COLUMN IF NOT EXISTS lease bigint NOT NULL DEFAULT 2000,
        ADD COLUMN IF NOT EXISTS ended boolean NOT NULL DEFAULT false;
    CREATE TABLE IF NOT EXISTS ripsawbean_journal (
        kind text, series bigint, piece bigint, bytes bytea NOT NULL, PRIMARY KEY (kind, series, piece));";
const HAS_JOURNAL: &str = "SELECT to_regclass('ripsawbean_journal') IS NOT NULL";
/// Whether all of these are there. To ask for them anew waits for each reader of the tables.
const HAS_TABLES: &str = "
    SELECT to_regclass('ripsawbean_journal') IS NOT NULL AND EXISTS (
        SELECT FROM pg_attribute WHERE attrelid = to_regclass('ripsawbean_owner') AND attname = 'ended')";
/// Gives the epoch, and for how many milliseconds an owner before may still answer: the longest of those that haven't
/// ended. It names the key, so that it waits for statements under the epoch before, and they for it.
const RAISE: &str = "
    WITH before AS (SELECT CASE WHEN ended THEN 0 ELSE lease END AS lease FROM ripsawbean_owner)
    INSERT INTO ripsawbean_owner (one, epoch, lease) VALUES (1, 1, $1) ON CONFLICT (one)
        DO UPDATE SET one = 1, epoch = ripsawbean_owner.epoch + 1, ended = false,
            lease = greatest($1, CASE WHEN ripsawbean_owner.ended THEN 0 ELSE ripsawbean_owner.lease END)
    RETURNING epoch, coalesce((SELECT lease FROM before), 0)";
/// What changes with each beat of the owner, and where the last batch stands.
const LOOK: &str = "
    SELECT epoch || '/' || beat || '/' || coalesce((SELECT series || '/' || piece FROM ripsawbean_journal
        WHERE kind = 'journal' ORDER BY series DESC, piece DESC LIMIT 1), '') FROM ripsawbean_owner";
/// Ends the connection that has the lock, but for one that waits for a replica: that says nothing of its server.
const END_OWNER: &str = "
    SELECT pg_terminate_backend(pid) FROM pg_locks JOIN pg_stat_activity USING (pid)
        WHERE locktype = 'advisory' AND granted AND classid::bigint = $1::bigint >> 32 AND
        objid::bigint = $1::bigint & 4294967295 AND datname = current_database() AND
        wait_event IS DISTINCT FROM 'SyncRep'";
/// Statements under the epoch that is still the owner's. Under another one they change nothing. A beat doesn't wait for
/// them, however long they take.
const WRITE: &str = "
    WITH owner AS (SELECT FROM ripsawbean_owner WHERE epoch = $1 FOR KEY SHARE)
    INSERT INTO ripsawbean_journal SELECT $2, $3, $4, $5 FROM owner";
/// Once no owner before answers any more.
const OWN_LEASE: &str = "UPDATE ripsawbean_owner SET lease = $2 WHERE epoch = $1";
const BEAT: &str = "UPDATE ripsawbean_owner SET beat = beat + 1, ended = $2 WHERE epoch = $1";
const FINISH: &str = "
    WITH owner AS (SELECT FROM ripsawbean_owner WHERE epoch = $1 FOR KEY SHARE)
    INSERT INTO ripsawbean_journal SELECT 'finished', $2::bigint, $3::bigint, ''::bytea FROM owner
        WHERE $3 = (SELECT count(*) FROM ripsawbean_journal WHERE kind = 'checkpoint' AND series = $2)";
const DROP_DRAFTS: &str = "
    WITH owner AS (SELECT FROM ripsawbean_owner WHERE epoch = $1 FOR KEY SHARE)
    DELETE FROM ripsawbean_journal WHERE kind = 'checkpoint' AND series <= $2 AND EXISTS (SELECT FROM owner) AND
        series NOT IN (SELECT series FROM ripsawbean_journal WHERE kind = 'finished')";
const DROP_BELOW: &str = "
    WITH owner AS (SELECT FROM ripsawbean_owner WHERE epoch = $1 FOR KEY SHARE)
    DELETE FROM ripsawbean_journal WHERE series < $2 AND EXISTS (SELECT FROM owner)";
const PIECES_THERE: &str = "SELECT count(*) FROM ripsawbean_journal WHERE kind = 'checkpoint' AND series = $1";
/// 0 where an older server has finished it.
const PIECES_WANTED: &str = "
    SELECT coalesce(max(piece), 0) FROM ripsawbean_journal WHERE kind = 'finished' AND series = $1";

pub struct Postgres {
    session: Session,
    /// How a draft connects.
    address: Arc<Address>,
    lease: Duration,
    /// Where the owner before answers no longer.
    begins: Instant,
    /// The series that was appended to last, and its last piece.
    last: Option<(Series, i64)>,
}

impl Session {
    /// Writes one row, where this server is still the owner.
    fn write(&self, kind: &str, series: u64, piece: i64, bytes: &[u8]) -> Result<(), Failure> {
        self.change_one(WRITE, &[&kind, &number(series), &piece, &bytes])
    }

    fn number(&self, query: &str, series: Series) -> Result<i64, Failure> {
        Ok(self.ask(self.client.query_one(query, &[&number(series.number)]))?.get(0))
    }

    fn check_pieces(&self, checkpoint: Series, wanted: i64) -> Result<(), Failure> {
        match self.number(PIECES_THERE, checkpoint)? {
            found if found == wanted => Ok(()),
            found => {
                let why = format!("{checkpoint} has {found} of its {wanted} pieces. Nothing was changed");
                Err(Failure::Refused(why))
            }
        }
    }
}

/// Series are counted up from 1, so none comes near the end of either kind of number.
fn number(series: u64) -> i64 {
    i64::try_from(series).unwrap_or(i64::MAX)
}

impl Postgres {
    /// Connects, reads what is there, and what is added to it until the lock comes, and takes over the journal.
    pub fn take(address: &str, lease: Duration, reading: &mut Reading) -> Result<Postgres, Error> {
        let (address, mut said) = (Arc::new(Address::of(address)?), String::new());
        let mut say = |words: String| {
            if words != said {
                eprintln!("ripsawbean-server: {words}");
                said = words;
            }
        };
        loop {
            let connected = Session::connect(&address).map_err(Error::Failure);
            let taken = connected.and_then(|session| {
                let begins = Instant::now();
                let mut postgres = Postgres { session, address: address.clone(), lease, begins, last: None };
                postgres.wait(reading, &mut say)?;
                postgres.own(reading)?;
                Ok(postgres)
            });
            match taken {
                Err(Error::Failure(failure @ (Failure::Postgres(_) | Failure::Fenced))) => {
                    say(format!("{failure}. It is asked again until it serves"));
                }
                taken => return taken,
            }
            sleep(AGAIN);
        }
    }

    /// Reads what was written since. Where the owner isn't there any more, what was read before is looked at again.
    fn follow(&mut self, reading: &mut Reading, is_owner: bool) -> Result<(), Error> {
        let is_begun = reading.is_begun();
        let all = match is_begun {
            true => {
                let newest = self.newest()?;
                if newest == reading.reached() && !is_owner {
                    return Ok(());
                }
                Found::up_to(newest.map(|(series, _)| series))
            }
            false if !self.has(HAS_JOURNAL)? => return Ok(()),
            false => found(self)?,
        };
        let why = match reading.take_all(self, &all) {
            Ok(()) => return Ok(()),
            Err(failure @ Failure::NoMemory(_)) => return Err(failure.into()),
            // What was read before it counts.
            Err(failure @ Failure::Postgres(_)) if is_begun => return Err(failure.into()),
            Err(failure) => failure,
        };
        *reading = reading.anew()?;
        match why {
            // A checkpoint has made it superfluous meanwhile, or another PostgreSQL has something else there.
            Failure::Postgres(_) => Err(why.into()),
            _ if is_begun || found(self)?.base != all.base => Err(failure(format!("{why}. It is read anew")).into()),
            _ => Err(why.into()),
        }
    }

    /// Of its lease.
    fn milliseconds(&self) -> i64 {
        i64::try_from(self.lease.as_millis()).unwrap_or(i64::MAX)
    }

    fn has(&self, query: &str) -> Result<bool, Failure> {
        Ok(self.session.ask_within(HOST, self.session.client.query_one(query, &[]))?.get(0))
    }

    /// The number of the last journal, and of its last piece.
    fn newest(&self) -> Result<Option<(u64, u64)>, Failure> {
        let query = "SELECT series, piece FROM ripsawbean_journal WHERE kind = 'journal'
                     ORDER BY series DESC, piece DESC LIMIT 1";
        let newest = self.session.ask_within(HOST, self.session.client.query_opt(query, &[]))?;
        let number = |row: &Row, at| u64::try_from(row.get::<_, i64>(at)).unwrap_or(0);
        Ok(newest.map(|row| (number(&row, 0), number(&row, 1))))
    }

    /// Waits for the lock by asking for it, so that a PostgreSQL that is silent is left, and an owner that is silent is
    /// noticed. What the owner writes is read meanwhile.
    fn wait(&mut self, reading: &mut Reading, say: &mut impl FnMut(String)) -> Result<(), Error> {
        let (mut seen, mut since) = (None, Instant::now());
        loop {
            self.follow(reading, false)?;
            let (session, client) = (&self.session, &self.session.client);
            let lock = client.query_one("SELECT pg_try_advisory_lock($1)", &[&LOCK]);
            if session.ask_within(HOST, lock)?.get(0) {
                return Ok(());
            }
            say("another server has the journal: waiting until it ends".into());
            let stands = match session.ask_within(HOST, client.query_opt(LOOK, &[])) {
                // An owner of an earlier version has no beat, and one that begins has no tables.
                Err(Failure::Refused(_)) => None,
                stands => stands?.map(|row| row.get::<_, String>(0)),
            };
            if stands.is_none() || stands != seen {
                (seen, since) = (stands, Instant::now());
            } else if since.elapsed() > SILENCE {
                say("the server that has the journal is silent: its connection is ended".into());
                session.ask_within(HOST, client.execute(END_OWNER, &[&LOCK]))?;
                since = Instant::now();
            }
            sleep(AGAIN);
        }
    }

    /// Raises the epoch, and reads the rest.
    fn own(&mut self, reading: &mut Reading) -> Result<(), Error> {
        if !self.has(HAS_TABLES)? {
            self.session.ask(self.session.client.batch_execute(TABLES))?;
        }
        let lease = self.milliseconds();
        let raised = self.session.confirmed(self.session.client.query_one(RAISE, &[&lease]))?;
        // The clocks of two machines may run apart by a twentieth.
        let before = Duration::from_millis(u64::try_from(raised.get::<_, i64>(1)).unwrap_or(0)) * 21 / 20;
        self.begins = Instant::now() + before;
        self.session.epoch = raised.get(0);
        self.follow(reading, true)
    }

    /// The next pieces behind one. Series go as a whole: so while that one stands there, none is missing behind it.
    fn pieces(&self, series: Series, behind: i64) -> Result<Vec<Row>, Failure> {
        let query = "SELECT piece, CASE WHEN piece = $3 THEN '' ELSE bytes END FROM ripsawbean_journal
                     WHERE kind = $1 AND series = $2 AND piece >= $3 ORDER BY piece LIMIT $4";
        let kind = series.kind.name();
        let words: [&(dyn ToSql + Sync); 4] = [&kind, &number(series.number), &behind, &PIECES];
        let rows = self.session.ask_within(SILENCE, self.session.client.query(query, &words))?;
        match rows.first() {
            first if behind > 0 && first.is_none_or(|row| row.get::<_, i64>(0) != behind) => {
                Err(Failure::Missing(self.name(series)))
            }
            _ => Ok(rows),
        }
    }
}

impl Store for Postgres {
    fn all(&mut self) -> Result<Vec<Series>, Failure> {
        // A checkpoint counts by its row of kind `finished`.
        let query = "SELECT DISTINCT kind, series FROM ripsawbean_journal WHERE kind <> 'checkpoint'";
        let rows = self.session.ask(self.session.client.query(query, &[]))?;
        let series = |row: &Row| {
            let number = u64::try_from(row.get::<_, i64>(1)).unwrap_or(0);
            match row.get::<_, &str>(0) {
                "journal" => Series::journal(number),
                _ => Series::checkpoint(number),
            }
        };
        Ok(rows.iter().map(series).collect())
    }

    fn read(&mut self, series: Series, behind: u64) -> Result<Box<dyn Read + '_>, Failure> {
        if series.kind == Kind::Checkpoint {
            let wanted = self.session.number(PIECES_WANTED, series)?;
            if wanted > 0 {
                self.session.check_pieces(series, wanted)?;
            }
        }
        Ok(Box::new(Pieces { postgres: self, series, last: number(behind), bytes: Vec::new(), taken: 0 }))
    }

    fn name(&self, series: Series) -> String {
        format!("{series} in PostgreSQL")
    }

    /// A transaction is there as a whole or not at all, so nothing is torn.
    fn cut(&mut self, series: Series, length: u64) -> Result<(), Failure> {
        Err(Failure::Torn { name: self.name(series), at: length })
    }

    fn append(&mut self, series: Series, pieces: &[&[u8]]) -> Result<(), Failure> {
        // The first batch comes before anyone is answered, and may wait for that.
        while let Some(left) = self.begins.checked_duration_since(Instant::now()) {
            self.beat(false)?;
            sleep(left.min(AGAIN));
        }
        if self.last.is_none() {
            self.session.change_one(OWN_LEASE, &[&self.milliseconds()])?;
        }
        let piece = match self.last.filter(|(last, _)| *last == series) {
            Some((_, piece)) => piece + 1,
            None => {
                let query = "SELECT coalesce(max(piece), 0) FROM ripsawbean_journal WHERE kind = $1 AND series = $2";
                let (kind, number) = (series.kind.name(), number(series.number));
                let last = self.session.ask(self.session.client.query_one(query, &[&kind, &number]))?;
                last.get::<_, i64>(0) + 1
            }
        };
        self.session.write(series.kind.name(), series.number, piece, &pieces.concat())?;
        self.last = Some((series, piece));
        Ok(())
    }

    fn draft(&mut self, number: u64) -> Result<Box<dyn Draft>, Failure> {
        let (address, epoch) = (self.address.clone(), self.session.epoch);
        Ok(Box::new(RowDraft { address, epoch, session: None, number, piece: 0 }))
    }

    fn drop_below(&mut self, below: u64) -> Result<(), Failure> {
        self.session.change(DROP_DRAFTS, &[&i64::MAX])?;
        self.session.change(DROP_BELOW, &[&number(below)]).map(drop)
    }

    fn place(&self) -> Option<Place> {
        None
    }

    fn beat(&mut self, is_last: bool) -> Result<(), Failure> {
        self.session.change_one(BEAT, &[&is_last])
    }

    fn lease(&self) -> Option<Duration> {
        Some(self.lease)
    }
}

/// The pieces of a series, one behind another.
struct Pieces<'a> {
    postgres: &'a Postgres,
    series: Series,
    last: i64,
    bytes: Vec<u8>,
    taken: usize,
}

impl Read for Pieces<'_> {
    fn read(&mut self, out: &mut [u8]) -> io::Result<usize> {
        if self.taken == self.bytes.len() {
            self.bytes.clear();
            self.taken = 0;
            let rows = self.postgres.pieces(self.series, self.last);
            for row in rows.map_err(io::Error::other)? {
                self.last = row.get(0);
                self.bytes.extend_from_slice(row.get(1));
            }
        }
        let count = self.bytes[self.taken..].as_ref().read(out)?;
        self.taken += count;
        Ok(count)
    }
}

/// A checkpoint without its row of kind `finished`. It makes a connection of its own, so that batches don't wait for it.
struct RowDraft {
    address: Arc<Address>,
    epoch: i64,
    session: Option<Session>,
    number: u64,
    piece: i64,
}

impl RowDraft {
    fn session(&mut self) -> Result<&Session, Failure> {
        let session = match self.session.take() {
            Some(session) => session,
            None => Session { epoch: self.epoch, ..Session::connect(&self.address)? },
        };
        Ok(self.session.insert(session))
    }
}

impl Draft for RowDraft {
    fn write(&mut self, bytes: &[u8]) -> Result<(), Failure> {
        self.piece += 1;
        let (number, piece) = (self.number, self.piece);
        self.session()?.write("checkpoint", number, piece, bytes)
    }

    fn finish(mut self: Box<Self>) -> Result<(), Failure> {
        let (checkpoint, series, piece) = (Series::checkpoint(self.number), number(self.number), self.piece);
        let session = self.session()?;
        if session.change(FINISH, &[&series, &piece])? == 0 {
            session.check_pieces(checkpoint, piece)?;
            return Err(Failure::Fenced);
        }
        session.change(DROP_BELOW, &[&series]).map(drop)
    }
}

impl Drop for RowDraft {
    /// One that failed leaves its room. It is asked behind what was asked to finish it, on the same connection: where that
    /// has come to its end, the draft is none any more.
    fn drop(&mut self) {
        let _ = self.session.as_ref().map(|session| session.change(DROP_DRAFTS, &[&number(self.number)]));
    }
}
