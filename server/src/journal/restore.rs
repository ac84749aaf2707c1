//! `--restore FILE`: a dump becomes the checkpoint with which a new database begins.
//!
//! It gets an identity of its own: what is committed from here on isn't what the other one commits. Names aren't in a
//! dump, because what a consumer has stored names the other identity.

use super::copy::is_end;
use super::frame::{Batches, Chain};
use super::note::Note;
use super::recovery::failure_of;
use super::store::{Series, Store};
use super::Failure;
use std::fs::File;
use std::path::Path;

/// The series whose form a dump has.
pub const DUMP: Series = Series { kind: super::store::Kind::Checkpoint, number: 0 };

/// Puts a dump into an empty store, under a new identity.
pub fn restore(store: &mut dyn Store, file: &Path, identity: &str) -> Result<(), Failure> {
    let (half, all) = (Series::checkpoint(1), store.all()?);
    match all.first() {
        Some(_) if all == [half] => return Err(Failure::HalfRestored(store.name(half))),
        Some(series) => return Err(Failure::NotEmpty(store.name(*series))),
        // What one has left that was cut still earlier.
        None => store.drop_below(half.number)?,
    }
    let (name, series) = (file.display().to_string(), half);
    let mut batches = Batches::new(File::open(file).map_err(|error| Failure::file(file, error))?, DUMP);
    let mut draft = store.draft(series.number)?;
    let (mut chain, mut is_whole) = (Chain::new(identity, series), false);
    let head = Note::Database(identity.into()).to_string();
    while let Some(batch) = batches.next().map_err(|fault| failure_of(&name, fault))? {
        let first = batch.lines.iter().position(|&byte| byte == b'\n').map_or(0, |end| end + 1);
        let lines =
            if batch.number == 1 { [head.as_bytes(), &batch.lines[first..]].concat() } else { batch.lines.to_vec() };
        let mut bytes = Vec::with_capacity(lines.len() + 160);
        chain.add(batch.number, 0, &lines, &mut bytes);
        draft.write(&bytes)?;
        is_whole = is_end(&lines);
    }
    if !is_whole || batches.torn() > 0 {
        return Err(Failure::NotWhole { name, at: batches.whole() });
    }
    draft.finish()?;
    let (series, mut bytes) = (Series::journal(1), Vec::new());
    Chain::new(identity, series).add(1, 0, head.as_bytes(), &mut bytes);
    store.append(series, &[&bytes])
}
