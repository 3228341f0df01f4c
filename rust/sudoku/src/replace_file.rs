//! Files written beside the old one, and put in its place.

use std::fs::{self, File, Metadata, OpenOptions};
use std::io::{self, Write};
use std::os::unix::fs::{MetadataExt, OpenOptionsExt, fchown};
use std::path::{Path, PathBuf};
use std::process;
use std::sync::atomic::{AtomicU64, Ordering};

/// Names that are tried for a temporary file before giving up.
const TRIES: usize = 1000;

/// Symbolic links that are followed one after the other, as many as Linux does.
const LINKS: usize = 40;

/// Writes a file so that a crash leaves the old one or the new one, and never a
/// part of it.
///
/// The bytes go to a temporary file in the same folder. Only when the disk has
/// them, that file takes the old one's name, with its permissions and, where the
/// system allows it, its owner. If anything fails the temporary file is removed.
/// An old file that may not be written is not replaced either. A process that is
/// killed in between may leave the temporary file behind: `.sudoku-*.tmp`.
///
/// The old file itself isn't changed: other names of it (hard links) keep the old
/// content, and its access lists and extended attributes aren't carried over.
///
/// Symbolic links stay: the file that they lead to is replaced. A device or a
/// pipe can't be replaced, and the bytes are written into it.
///
/// ```no_run
/// # let wear = sudoku::Wear::new();
/// sudoku::replace_file("tour.wear", wear.to_text().as_bytes())?;
/// # Ok::<(), std::io::Error>(())
/// ```
///
/// # Errors
///
/// Those of the file system. An old file is then as it was.
pub fn replace_file(path: impl AsRef<Path>, bytes: &[u8]) -> io::Result<()> {
    let path = path.as_ref();
    // Opened without being cut, it stays as it is.
    match OpenOptions::new().write(true).open(path) {
        Ok(mut old) => {
            let metadata = old.metadata()?;
            if !metadata.is_file() {
                return old.write_all(bytes);
            }
            put(&fs::canonicalize(path)?, bytes, Some(&metadata))
        }
        Err(error) if error.kind() == io::ErrorKind::NotFound => {
            put(&end_of_links(path)?, bytes, None)
        }
        Err(error) => Err(error),
    }
}

/// The path to which symbolic links lead that end nowhere.
fn end_of_links(path: &Path) -> io::Result<PathBuf> {
    let mut path = path.to_path_buf();
    for _ in 0..LINKS {
        match fs::read_link(&path) {
            Ok(leads_to) => path = folder_of(&path).join(leads_to),
            Err(_) => return Ok(path),
        }
    }
    Err(io::Error::other("too many symbolic links"))
}

/// The folder in which this path stands.
fn folder_of(path: &Path) -> &Path {
    match path.parent() {
        Some(folder) if folder != Path::new("") => folder,
        _ => Path::new("."),
    }
}

/// Puts a file of these bytes in the place of an old one, or where none is.
fn put(target: &Path, bytes: &[u8], old: Option<&Metadata>) -> io::Result<()> {
    let folder = folder_of(target);
    let (temporary, file) = create_in(folder, old.is_some())?;
    let renamed = fill(file, bytes, old).and_then(|()| fs::rename(&temporary, target));
    if renamed.is_err() {
        // The first error is the one to be told.
        let _ = fs::remove_file(&temporary);
        return renamed;
    }
    // The new file stands there. That its name reaches the disk at once is more
    // than every file system can do.
    let _ = File::open(folder).and_then(|folder| folder.sync_all());
    Ok(())
}

/// A new file in this folder, under a name that nothing else has.
fn create_in(folder: &Path, private: bool) -> io::Result<(PathBuf, File)> {
    static NEXT: AtomicU64 = AtomicU64::new(0);
    // Until it has the old file's permissions nobody else may look into it.
    let mode = if private { 0o600 } else { 0o666 };
    let mut tries = TRIES;
    loop {
        tries -= 1;
        let number = NEXT.fetch_add(1, Ordering::Relaxed);
        let path = folder.join(format!(".sudoku-{}-{number}.tmp", process::id()));
        let mut options = OpenOptions::new();
        match options.write(true).create_new(true).mode(mode).open(&path) {
            Err(error) if error.kind() == io::ErrorKind::AlreadyExists && tries > 0 => {}
            created => return Ok((path, created?)),
        }
    }
}

/// Writes the bytes to the disk, in a file with the old one's owner and
/// permissions.
fn fill(mut file: File, bytes: &[u8], old: Option<&Metadata>) -> io::Result<()> {
    if let Some(old) = old {
        let new = file.metadata()?;
        if (new.uid(), new.gid()) != (old.uid(), old.gid()) {
            // Only the superuser may give a file away.
            let _ = fchown(&file, Some(old.uid()), Some(old.gid()));
        }
        file.set_permissions(old.permissions())?;
    }
    file.write_all(bytes)?;
    file.sync_all()
}
