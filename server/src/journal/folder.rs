//! A journal in a folder: each series is a file.
//!
//! ```text
//! FOLDER                               locked as long as the process lives, and so is
//! FOLDER/lock                          for people and older servers: who removes it lets nobody in
//! FOLDER/journal-000003.script         appended to, and synced after each batch
//! FOLDER/checkpoint-000003.script      under its name once it is whole
//! FOLDER/checkpoint-000004.script.new  begun, and not finished: it goes with its draft, or at the next start
//! ```
//!
//! 1. `fdatasync` is enough for a file that grows. A new name, and one that changes, need the folder's `fsync`: else a
//!    loss of power takes the file, with all that was acknowledged in it.
//! 2. Names that a process left that died are synced before anything is read: else what is appended to such a file, and
//!    what is removed because of it, outlives the name itself. The folder's own name, too.
//! 3. A second server on the folder is refused, by `flock`: else both append, and no later start finds a right series.

use super::store::{Draft, Kind, Place, Series, Store};
use super::Failure;
use std::fs::{self, File, OpenOptions, TryLockError};
use std::io::{self, Read, Write};
use std::os::unix::ffi::OsStrExt;
use std::os::unix::fs::{DirBuilderExt, OpenOptionsExt};
use std::path::{Path, PathBuf};
use std::sync::Arc;

const NEW: &str = "new";
const ENDING: &str = ".script";

/// The folder's files, for whoever writes to them. The locks are held while one of them is there.
struct Files {
    path: PathBuf,
    _locks: [File; 2],
}

pub struct Folder {
    files: Arc<Files>,
    /// The series that was appended to last.
    last: Option<(Series, File)>,
}

impl Folder {
    /// Takes a folder, which is made where it isn't there. The one in which it stands has to be there: a path with a slip
    /// would begin a new database elsewhere.
    pub fn take(path: &Path) -> Result<Folder, Failure> {
        match fs::DirBuilder::new().mode(0o700).create(path) {
            Err(error) if error.kind() == io::ErrorKind::NotFound => return Err(Failure::NoParent(path.to_path_buf())),
            Err(error) if !path.is_dir() => return Err(Failure::file(path, error)),
            _ => {}
        }
        let path = path.canonicalize().map_err(|error| Failure::file(path, error))?;
        let files = Files { _locks: lock(&path)?, path };
        sync_name(&files.path)?;
        files.sync()?;
        Ok(Folder { files: Arc::new(files), last: None })
    }
}

/// Locks a folder, and a file in it.
fn lock(path: &Path) -> Result<[File; 2], Failure> {
    let of_path = |error| Failure::file(path, error);
    let folder = File::open(path).map_err(of_path)?;
    // Where a network's file system locks no folders, the file's lock is all that there is.
    if matches!(folder.try_lock(), Err(TryLockError::WouldBlock)) {
        return Err(Failure::Taken(path.to_path_buf()));
    }
    let name = path.join("lock");
    let mut options = OpenOptions::new();
    let file = options.read(true).write(true).create(true).truncate(false).mode(0o600).open(&name);
    let file = file.map_err(|error| Failure::file(&name, error))?;
    match file.try_lock() {
        Ok(()) => Ok([folder, file]),
        Err(TryLockError::WouldBlock) => Err(Failure::Taken(path.to_path_buf())),
        Err(TryLockError::Error(error)) => Err(Failure::file(&name, error)),
    }
}

/// Makes a folder's own name durable. Whoever may not open its parent, or has none that can be synced, hasn't made it.
fn sync_name(path: &Path) -> Result<(), Failure> {
    use io::ErrorKind::{InvalidInput, PermissionDenied, ReadOnlyFilesystem};
    let Some(parent) = path.parent() else { return Ok(()) };
    match File::open(parent).and_then(|parent| parent.sync_all()) {
        Err(error) if !matches!(error.kind(), InvalidInput | PermissionDenied | ReadOnlyFilesystem) => {
            Err(Failure::file(parent, error))
        }
        _ => Ok(()),
    }
}

impl Files {
    fn path(&self, series: Series) -> PathBuf {
        self.path.join(format!("{series}{ENDING}"))
    }

    fn names(&self) -> Result<Vec<String>, Failure> {
        let of_path = |error| Failure::file(&self.path, error);
        let entries = fs::read_dir(&self.path).map_err(of_path)?;
        entries.map(|entry| Ok(entry.map_err(of_path)?.file_name().to_string_lossy().into_owned())).collect()
    }

    fn all(&self) -> Result<Vec<Series>, Failure> {
        Ok(self.names()?.iter().filter_map(|name| series_in(name)).collect())
    }

    fn create(&self, path: &Path) -> Result<File, Failure> {
        let created = OpenOptions::new().append(true).create_new(true).mode(0o600).open(path);
        created.map_err(|error| Failure::file(path, error))
    }

    /// Makes names durable.
    fn sync(&self) -> Result<(), Failure> {
        File::open(&self.path).and_then(|folder| folder.sync_all()).map_err(|error| Failure::file(&self.path, error))
    }

    fn remove(&self, path: &Path) -> Result<(), Failure> {
        match fs::remove_file(path) {
            Err(error) if error.kind() != io::ErrorKind::NotFound => Err(Failure::file(path, error)),
            _ => Ok(()),
        }
    }

    fn drop_below(&self, number: u64) -> Result<(), Failure> {
        for series in self.all()?.into_iter().filter(|series| series.number < number) {
            self.remove(&self.path(series))?;
        }
        Ok(())
    }
}

fn series_in(name: &str) -> Option<Series> {
    let (kind, number) = name.strip_suffix(ENDING)?.split_once('-')?;
    let kind = match kind {
        "journal" => Kind::Journal,
        "checkpoint" => Kind::Checkpoint,
        _ => return None,
    };
    let series = Series { kind, number: number.parse().ok()? };
    (format!("{series}{ENDING}") == name).then_some(series)
}

impl Store for Folder {
    fn all(&mut self) -> Result<Vec<Series>, Failure> {
        self.files.all()
    }

    /// No one else writes to it, so it is read once.
    fn read(&mut self, series: Series, _behind: u64) -> Result<Box<dyn Read + '_>, Failure> {
        let path = self.files.path(series);
        File::open(&path).map(|file| Box::new(file) as Box<dyn Read>).map_err(|error| Failure::file(&path, error))
    }

    fn name(&self, series: Series) -> String {
        self.files.path(series).display().to_string()
    }

    fn cut(&mut self, series: Series, length: u64) -> Result<(), Failure> {
        let path = self.files.path(series);
        let cut = || {
            let file = OpenOptions::new().write(true).open(&path)?;
            file.set_len(length)?;
            file.sync_all()
        };
        cut().map_err(|error| Failure::file(&path, error))?;
        self.files.sync()
    }

    fn append(&mut self, series: Series, pieces: &[&[u8]]) -> Result<(), Failure> {
        let path = self.files.path(series);
        let of_path = |error| Failure::file(&path, error);
        let (mut file, is_new) = match self.last.take() {
            Some((last, file)) if last == series => (file, false),
            _ => match OpenOptions::new().append(true).open(&path) {
                Ok(file) => (file, false),
                Err(error) if error.kind() == io::ErrorKind::NotFound => (self.files.create(&path)?, true),
                Err(error) => return Err(of_path(error)),
            },
        };
        pieces.iter().try_for_each(|piece| file.write_all(piece)).and_then(|()| file.sync_data()).map_err(of_path)?;
        if is_new {
            self.files.sync()?;
        }
        self.last = Some((series, file));
        Ok(())
    }

    fn draft(&mut self, number: u64) -> Result<Box<dyn Draft>, Failure> {
        let series = Series::checkpoint(number);
        let path = self.files.path(series).with_extension(format!("script.{NEW}"));
        let file = self.files.create(&path)?;
        Ok(Box::new(FileDraft { files: self.files.clone(), series, path, file }))
    }

    /// What drafts have left goes too, also one of the server's own: it asks for this before it has any.
    fn drop_below(&mut self, number: u64) -> Result<(), Failure> {
        for name in self.files.names()? {
            if Path::new(&name).extension().is_some_and(|ending| ending == NEW) {
                self.files.remove(&self.files.path.join(name))?;
            }
        }
        self.files.drop_below(number)
    }

    fn place(&self) -> Option<Place> {
        let host = fs::read_to_string("/proc/sys/kernel/hostname").unwrap_or_default();
        Some(Place::shortened(host.trim(), self.files.path.as_os_str().as_bytes()))
    }
}

struct FileDraft {
    files: Arc<Files>,
    series: Series,
    path: PathBuf,
    file: File,
}

impl Draft for FileDraft {
    /// Each piece is synced, so that the last sync is a short one.
    fn write(&mut self, bytes: &[u8]) -> Result<(), Failure> {
        let written = self.file.write_all(bytes).and_then(|()| self.file.sync_data());
        written.map_err(|error| Failure::file(&self.path, error))
    }

    fn finish(self: Box<Self>) -> Result<(), Failure> {
        let of_path = |error| Failure::file(&self.path, error);
        self.file.sync_all().map_err(of_path)?;
        fs::rename(&self.path, self.files.path(self.series)).map_err(of_path)?;
        // Else what is older could be gone, and the new name too.
        self.files.sync()?;
        self.files.drop_below(self.series.number)
    }
}

impl Drop for FileDraft {
    /// One that failed leaves its room to the journal. One that is finished has another name.
    fn drop(&mut self) {
        let _ = self.files.remove(&self.path);
    }
}

#[cfg(test)]
mod tests {
    use super::*;
    use crate::testing::folder;

    fn text(folder: &mut Folder, series: Series) -> String {
        let mut text = String::new();
        folder.read(series, 0).expect("it is there").read_to_string(&mut text).expect("it is read");
        text
    }

    #[test]
    fn a_series_grows_and_is_cut() {
        let path = folder();
        let mut one = Folder::take(&path).expect("it is free");
        let (first, second) = (Series::journal(1), Series::journal(2));
        for (series, bytes) in [(first, "a"), (first, "bc"), (second, "d"), (first, "e")] {
            one.append(series, &[bytes.as_bytes()]).expect("it is written");
        }
        assert_eq!((text(&mut one, first), text(&mut one, second)), ("abce".into(), "d".into()));
        one.cut(first, 2).expect("it is cut");
        one.append(first, &[b"f"]).expect("it is written");
        assert_eq!(text(&mut one, first), "abf");
        let mut all = one.all().expect("they are read");
        all.sort();
        assert_eq!(all, [first, second]);
    }

    #[test]
    fn a_draft_is_there_once_it_is_finished() {
        let path = folder();
        let mut one = Folder::take(&path).expect("it is free");
        one.append(Series::journal(1), &[b"a"]).expect("it is written");
        one.append(Series::journal(2), &[b"b"]).expect("it is written");
        let mut draft = one.draft(2).expect("it is begun");
        draft.write(b"c").expect("it is written");
        assert_eq!(one.all().expect("they are read").len(), 2);
        draft.finish().expect("it is finished");
        let mut all = one.all().expect("they are read");
        all.sort();
        assert_eq!(all, [Series::checkpoint(2), Series::journal(2)]);
        assert_eq!(text(&mut one, Series::checkpoint(2)), "c");
        assert_eq!(fs::read_dir(&path).expect("it is there").count(), 3);
    }

    #[test]
    fn a_draft_that_is_dropped_or_was_left_is_gone() {
        let path = folder();
        let left = path.join("checkpoint-000002.script.new");
        fs::write(&left, "c").expect("it is written");
        let mut one = Folder::take(&path).expect("it is free");
        one.drop_below(1).expect("they are dropped");
        assert!(!left.exists());
        let mut draft = one.draft(2).expect("it is begun");
        draft.write(b"c").expect("it is written");
        assert!(left.exists());
        drop(draft);
        assert!(!left.exists() && one.all().expect("they are read").is_empty());
    }

    #[test]
    fn one_folder_is_made_and_none_above_it() {
        let above = folder();
        let one = above.join("one");
        assert!(Folder::take(&one).is_ok() && Folder::take(&one.join("../other/")).is_ok());
        let fault = Folder::take(&one.join("slip/kept")).err().expect("its parent isn't there").to_string();
        let (path, parent) = (one.join("slip/kept"), one.join("slip"));
        let sentence = format!(
            "{} can't be made, because {} isn't there: make that folder first",
            path.display(),
            parent.display()
        );
        assert_eq!((fault, one.join("slip").exists()), (sentence, false));
        fs::write(above.join("file"), "").expect("it is written");
        for wrong in ["file", "file/kept"] {
            assert!(matches!(Folder::take(&above.join(wrong)), Err(Failure::File(..))), "{wrong}");
        }
    }

    #[test]
    fn two_servers_have_two_folders() {
        let path = folder();
        let one = Folder::take(&path).expect("it is free");
        assert!(matches!(Folder::take(&path), Err(Failure::Taken(_))));
        // Nor where somebody takes the file of a server that runs for one that was left.
        fs::remove_file(path.join("lock")).expect("it is there");
        assert!(matches!(Folder::take(&path), Err(Failure::Taken(_))));
        drop(one);
        // And a server that locks the file alone keeps others out.
        let older = File::create(path.join("lock")).expect("it is made");
        older.lock().expect("it is free");
        assert!(matches!(Folder::take(&path), Err(Failure::Taken(_))));
        drop(older);
        assert!(Folder::take(&path).is_ok());
    }

    #[test]
    fn other_files_are_no_series() {
        for name in
            ["journal-1.script", "journal-000001", "notes", "journal-0000001.script", "checkpoint-000001.script.new"]
        {
            assert_eq!(series_in(name), None, "{name}");
        }
        assert_eq!(series_in("journal-1000000.script"), Some(Series::journal(1_000_000)));
        assert_eq!(series_in("checkpoint-000012.script"), Some(Series::checkpoint(12)));
    }
}
