//! Store files in folders: opened, and saved by a rename, so that the old file or
//! the new one stands there and never a part.

use std::fs::{self, File, Permissions};
use std::io::{self, ErrorKind, Write};
use std::os::fd::OwnedFd;
use std::os::unix::fs::{FileTypeExt, MetadataExt, PermissionsExt, chown, symlink};
use std::path::{Path, PathBuf};
use std::sync::atomic::{AtomicBool, Ordering};
use std::{env, process, thread};

use library_tests::{cases, seed};
use reference::draw::{self, Store as Drawn};
use reference::random::Random;
use sudoku::{FileError, Refusal, Store, replace_file};

use crate::crate_over_c::store_of;

/// A folder of a test's own, removed at its end.
struct Folder(PathBuf);

impl Folder {
    fn new(name: &str) -> Folder {
        let path = env::temp_dir().join(format!("library-tests-{}-{name}", process::id()));
        fs::create_dir_all(&path).expect("a folder for temporary files");
        Folder(path)
    }

    fn join(&self, name: impl AsRef<Path>) -> PathBuf {
        self.0.join(name)
    }

    /// The names that stand in it, sorted.
    fn names(&self) -> Vec<String> {
        let entries = fs::read_dir(&self.0).expect("the folder");
        let name = |entry: fs::DirEntry| entry.file_name().to_string_lossy().into_owned();
        let mut names: Vec<String> = entries
            .map(|entry| name(entry.expect("an entry")))
            .collect();
        names.sort();
        names
    }
}

impl Drop for Folder {
    fn drop(&mut self) {
        let _ = fs::remove_dir_all(&self.0);
    }
}

/// Stores that differ: one of zeros, one with a changed line, one of other sides.
fn stores() -> [Store; 3] {
    let zero = Store::new(2, 2).expect("two by two");
    let mut changed = zero.clone();
    changed.change(1, &[7; 64]).expect("a change");
    [zero, changed, Store::new(3, 2).expect("three by two")]
}

fn opened(path: &Path) -> Store {
    Store::open(path).expect("a store")
}

#[test]
fn files_there_and_back() {
    let folder = Folder::new("back");
    let path = folder.join("show.store");
    let mut random = Random::new(seed());
    for _ in 0..cases(50) {
        let drawn = draw::hurt_store(&mut random, 8);
        let store = store_of(&drawn);
        store.save(&path).expect("saved");
        assert!(fs::read(&path).expect("read") == drawn.file());
        assert!(opened(&path) == store);
        assert_eq!(folder.names(), ["show.store"]);
    }
}

#[test]
fn the_largest_store_there_and_back() {
    let folder = Folder::new("largest");
    let path = folder.join("show.store");
    let mut store = Store::new(512, 512).expect("512 by 512");
    store.change(262_143, &[9; 64]).expect("a change");
    store.save(&path).expect("saved");
    assert_eq!(fs::metadata(&path).expect("a file").len(), 18_421_788);
    assert!(opened(&path) == store);
}

#[test]
fn files_that_cannot_be_read() {
    let folder = Folder::new("unreadable");
    let kind_of = |path: &Path| match Store::open(path) {
        Err(FileError::Io(error)) => error.kind(),
        other => panic!("{other:?}"),
    };
    assert_eq!(kind_of(&folder.join("missing.store")), ErrorKind::NotFound);
    assert_eq!(kind_of(&folder.0), ErrorKind::IsADirectory);
}

#[test]
fn files_that_are_no_store() {
    let folder = Folder::new("no-store");
    let path = folder.join("wrong.store");
    let error_of = |bytes: &[u8]| {
        fs::write(&path, bytes).expect("written");
        Store::open(&path).expect_err("no store")
    };
    let file = Drawn::zero(2, 2).file();
    let mut table = file.clone();
    table[8] ^= 1;
    for (bytes, due) in [
        (&[][..], "Short { bytes: 0 }"),
        (&file[..27], "Short { bytes: 27 }"),
        (&[0; 588], "Sides { rows: 0, columns: 0 }"),
        (&table, "Contents { rows: 2, columns: 2 }"),
    ] {
        assert_eq!(format!("{:?}", error_of(bytes)), due);
    }
    // A file knows its length, also where it is too long.
    for length in [28, 587, 589, 100_000] {
        let mut other = file.clone();
        other.resize(length, 0);
        let error = error_of(&other);
        assert_eq!(error.refusal(), Some(Refusal::Contents));
        let due = format!("Length {{ rows: 2, columns: 2, expected: 588, found: Some({length}) }}");
        assert_eq!(format!("{error:?}"), due);
    }
    let endless = Store::open("/dev/zero").expect_err("no store");
    assert_eq!(endless.refusal(), Some(Refusal::Sides));
}

/// What is told of a file that was read by its handle.
#[test]
fn the_length_of_a_file_too_long() {
    let folder = Folder::new("too-long");
    let file_of = |length: usize| {
        let mut bytes = Drawn::zero(2, 2).file();
        bytes.resize(length, 0);
        let path = folder.join("wrong.store");
        fs::write(&path, bytes).expect("written");
        File::open(&path).expect("a file")
    };
    let found = |error: FileError| match error {
        FileError::Length { found, .. } => found,
        other => panic!("{other}"),
    };
    let read = |file: &File| Store::read_from(file).expect_err("no store");
    for length in [589, 100_000] {
        let file = file_of(length);
        assert_eq!(
            found(read(&file).with_length_of(&file)),
            Some(length as u64)
        );
    }
    // What is known stays, whatever became of the file since.
    let short = read(&file_of(587));
    let long = file_of(589);
    assert_eq!(found(short.with_length_of(&long)), Some(587));
    // Of one that isn't too long any more no length is told.
    let too_long = read(&long);
    let cut = file_of(588);
    assert_eq!(found(too_long.with_length_of(&cut)), None);
    // Another flaw stays as it is.
    let error = Store::from_bytes(vec![]).expect_err("no store");
    let error = error.with_length_of(&cut);
    assert!(matches!(error, FileError::Short { bytes: 0 }), "{error}");
}

/// A pipe has no length, so that nobody knows how much follows.
#[test]
fn a_pipe_with_too_much() {
    let (from, mut to) = io::pipe().expect("a pipe");
    let file = Drawn::zero(2, 2).file();
    to.write_all(&file).expect("written");
    to.write_all(&[0; 100]).expect("written");
    let from = File::from(OwnedFd::from(from));
    let error = Store::read_from(&from).expect_err("no store");
    assert_eq!(
        error.with_length_of(&from).to_string(),
        "too long: 2 rows and 2 columns take 588 bytes, the file has more"
    );
}

/// Permission bits of a file.
fn mode(path: &Path) -> u32 {
    fs::metadata(path).expect("a file").permissions().mode() & 0o7777
}

#[test]
fn a_file_is_replaced_with_its_permissions() {
    let folder = Folder::new("replaced");
    let path = folder.join("show.store");
    let [old, new, other] = stores();
    for bits in [0o600, 0o640, 0o666, 0o755] {
        old.save(&path).expect("saved");
        fs::set_permissions(&path, Permissions::from_mode(bits)).expect("permissions");
        // Only the superuser can give the file to others; who can't keeps it.
        let _ = chown(&path, Some(12_345), Some(54_321));
        fs::set_permissions(&path, Permissions::from_mode(bits)).expect("permissions");
        let owner = |path: &Path| {
            let metadata = fs::metadata(path).expect("a file");
            (metadata.uid(), metadata.gid())
        };
        let (before, inode) = (owner(&path), fs::metadata(&path).expect("a file").ino());
        // One who has the old file open keeps reading it.
        let reader = File::open(&path).expect("open");
        new.save(&path).expect("saved");
        assert_eq!((mode(&path), owner(&path)), (bits, before));
        assert_ne!(fs::metadata(&path).expect("a file").ino(), inode);
        assert!(opened(&path) == new);
        assert!(Store::read_from(reader).expect("the old file") == old);
        other.save(&path).expect("saved");
        assert!(opened(&path) == other);
        assert_eq!(folder.names(), ["show.store"]);
    }
}

/// A new file has the permissions that any new file has here.
#[test]
fn a_new_file_is_as_any_other() {
    let folder = Folder::new("new");
    File::create(folder.join("any")).expect("a file");
    let path = folder.join("new.store");
    stores()[0].save(&path).expect("saved");
    assert_eq!(mode(&path), mode(&folder.join("any")));
}

#[test]
fn symbolic_links_stay() {
    let folder = Folder::new("links");
    fs::create_dir(folder.join("shows")).expect("a folder");
    let target = folder.join("shows/hamlet.store");
    let [old, new, other] = stores();
    old.save(&target).expect("saved");
    symlink("shows/hamlet.store", folder.join("relative")).expect("a link");
    symlink(&target, folder.join("absolute")).expect("a link");
    symlink("relative", folder.join("again")).expect("a link");
    for link in ["relative", "absolute", "again"] {
        let link = folder.join(link);
        for store in [&new, &other] {
            store.save(&link).expect("saved");
            assert!(fs::symlink_metadata(&link).expect("a link").is_symlink());
            assert!(opened(&target) == *store && opened(&link) == *store);
        }
    }
    // Links that lead to a file which isn't there yet.
    symlink("shows/lear.store", folder.join("first")).expect("a link");
    symlink("first", folder.join("second")).expect("a link");
    new.save(folder.join("second")).expect("saved");
    assert!(opened(&folder.join("shows/lear.store")) == new);
    assert_eq!(
        folder.names(),
        ["absolute", "again", "first", "relative", "second", "shows"]
    );
    let shows = Folder(folder.join("shows"));
    assert_eq!(shows.names(), ["hamlet.store", "lear.store"]);
    // And one that leads to itself.
    symlink("round", folder.join("round")).expect("a link");
    new.save(folder.join("round"))
        .expect_err("a link to itself");
}

#[test]
fn what_cannot_be_saved_leaves_everything() {
    let folder = Folder::new("refused");
    let [old, new, _] = stores();
    let path = folder.join("show.store");
    old.save(&path).expect("saved");
    fs::create_dir(folder.join("empty")).expect("a folder");
    for (wrong, kind) in [
        ("missing/show.store", ErrorKind::NotFound),
        // A file where a folder should be.
        ("show.store/new.store", ErrorKind::NotADirectory),
        ("empty", ErrorKind::IsADirectory),
        // Found wrong only when the new file is written already.
        ("new.store/", ErrorKind::NotADirectory),
    ] {
        let error = new.save(folder.join(wrong)).expect_err(wrong);
        assert_eq!(error.kind(), kind, "{wrong}: {error}");
        assert_eq!(folder.names(), ["empty", "show.store"], "{wrong}");
    }
    let long = "n".repeat(256);
    new.save(folder.join(&long)).expect_err("a name too long");
    assert_eq!(folder.names(), ["empty", "show.store"]);
    assert!(opened(&path) == old);
    // One byte less is a name.
    new.save(folder.join(&long[1..])).expect("saved");
    assert!(opened(&folder.join(&long[1..])) == new);
}

/// Where a file or a folder may not be written, nothing is saved. The superuser
/// may write anywhere, and then everything is.
#[test]
fn where_nothing_may_be_written() {
    let folder = Folder::new("guarded");
    let [old, new, _] = stores();
    let path = folder.join("show.store");
    old.save(&path).expect("saved");

    fs::set_permissions(&path, Permissions::from_mode(0o444)).expect("permissions");
    let may_write = File::options().write(true).open(&path).is_ok();
    assert_eq!(new.save(&path).is_ok(), may_write);
    assert!(opened(&path) == if may_write { new.clone() } else { old.clone() });
    assert_eq!(mode(&path), 0o444);

    fs::set_permissions(&path, Permissions::from_mode(0o644)).expect("permissions");
    fs::set_permissions(&folder.0, Permissions::from_mode(0o555)).expect("permissions");
    let may_create = File::create(folder.join("any")).is_ok();
    let saved = old.save(&path).is_ok();
    fs::set_permissions(&folder.0, Permissions::from_mode(0o755)).expect("permissions");
    assert_eq!(saved, may_create);
    assert!(opened(&path) == if may_create || !may_write { old } else { new });
    let names: &[&str] = if may_create {
        &["any", "show.store"]
    } else {
        &["show.store"]
    };
    assert_eq!(folder.names(), names);
}

#[test]
fn devices_are_written_into() {
    let store = &stores()[0];
    let full = store.save("/dev/full").expect_err("full");
    assert_eq!(full.kind(), ErrorKind::StorageFull);
    store.save("/dev/null").expect("thrown away");
    for device in ["/dev/full", "/dev/null"] {
        let metadata = fs::metadata(device).expect("a device");
        assert!(metadata.file_type().is_char_device(), "{device}");
    }
}

/// Files that have the names of the next temporary ones stay, whoever left them.
#[test]
fn names_that_are_taken() {
    let folder = Folder::new("taken");
    let taken: Vec<PathBuf> = (0..700)
        .map(|n| folder.join(format!(".sudoku-{}-{n}.tmp", process::id())))
        .collect();
    for path in &taken {
        fs::write(path, "kept").expect("written");
    }
    let [old, new, _] = stores();
    let path = folder.join("show.store");
    old.save(&path).expect("saved");
    new.save(&path).expect("saved");
    assert!(opened(&path) == new);
    for path in &taken {
        assert_eq!(fs::read(path).expect("a file"), b"kept");
    }
    assert_eq!(folder.names().len(), taken.len() + 1);
}

/// While one thread saves, others find a whole store each time.
#[test]
fn readers_find_the_old_file_or_the_new_one() {
    let folder = Folder::new("at-once");
    let path = folder.join("show.store");
    let stores = stores();
    stores[0].save(&path).expect("saved");
    let done = AtomicBool::new(false);
    thread::scope(|scope| {
        for _ in 0..2 {
            scope.spawn(|| {
                while !done.load(Ordering::Relaxed) {
                    assert!(stores.contains(&opened(&path)));
                }
            });
        }
        for turn in 0..cases(60) {
            stores[turn % 3].save(&path).expect("saved");
        }
        done.store(true, Ordering::Relaxed);
    });
    assert_eq!(folder.names(), ["show.store"]);
}

#[test]
fn other_bytes_are_replaced_alike() {
    let folder = Folder::new("bytes");
    let path = folder.join("tour.wear");
    for text in ["1 4 4 0 0 0 0 1 0 0\n", "", "2 8 8 0 0 0 0 2 0 0\n"] {
        replace_file(&path, text.as_bytes()).expect("saved");
        assert_eq!(fs::read_to_string(&path).expect("a file"), text);
    }
    assert_eq!(folder.names(), ["tour.wear"]);
}
