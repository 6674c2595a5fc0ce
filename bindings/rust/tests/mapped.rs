//! Files that are mapped: sums that would overflow, what is no regular file, holes, and space on the disk.
#![cfg(all(target_os = "linux", target_pointer_width = "64"))]
use page_index::mapped::{open_regular, MappedFile, MappedFileMut};
use page_index::{format, get, is_new, put, words_for, Refusal, ALL};
use std::fs::{self, File, OpenOptions};
use std::io::{ErrorKind, Result};
use std::os::unix::fs::MetadataExt;
use std::os::unix::net::UnixListener;
use std::path::{Path, PathBuf};
use std::process::Command;

/// A folder that is removed at the end of a test.
struct Folder(PathBuf);

impl Folder {
    fn new(name: &str) -> Folder {
        let path = std::env::temp_dir().join(format!("page-index-{name}-{}", std::process::id()));
        fs::create_dir_all(&path).unwrap();
        Folder(path)
    }

    fn file(&self, name: &str) -> PathBuf {
        self.0.join(name)
    }
}

impl Drop for Folder {
    fn drop(&mut self) {
        let _ = fs::remove_dir_all(&self.0);
    }
}

fn look(path: &Path) -> Result<MappedFile> {
    // SAFETY: the files of these tests are in folders that no other process knows.
    unsafe { MappedFile::open(path) }
}

fn change(path: &Path) -> Result<MappedFileMut> {
    // SAFETY: as in `look`.
    unsafe { MappedFileMut::open(path) }
}

fn create(path: &Path, words: usize) -> Result<MappedFileMut> {
    // SAFETY: as in `look`.
    unsafe { MappedFileMut::open_or_create(path, words) }
}

/// How many bytes of the disk a file takes.
fn taken(path: &Path) -> u64 {
    512 * fs::metadata(path).unwrap().blocks()
}

#[test]
fn words_of_every_shape_that_format_takes() {
    for (depth, segments) in [(2, 1), (2, 4), (6, 64), (12, 1), (12, 4096)] {
        let words = words_for(depth, segments).unwrap();
        assert_eq!(format(&mut vec![0; words], depth, segments, ALL), Ok(67));
        assert_eq!(format(&mut vec![0; words - 1], depth, segments, ALL).unwrap_err().refusal, Refusal::TooShort);
    }
    for (depth, segments) in
        [(0, 1), (1, 1), (13, 1), (64, 1), (u64::MAX, 1), (2, 0), (2, 5), (12, 4097), (12, u64::MAX)]
    {
        let refused = words_for(depth, segments).unwrap_err();
        assert_eq!(refused.refusal, Refusal::BadShape);
        assert_eq!(format(&mut [], depth, segments, ALL), Err(refused));
    }
}

#[test]
fn no_file_has_so_many_words() {
    let folder = Folder::new("sums");
    let path = folder.file("words");
    // Eight bytes for each of the first number are 32 bytes more than 2^64.
    for words in [(1 << 61) + 4, 1 << 60, usize::MAX] {
        let error = create(&path, words).err().unwrap();
        assert_eq!(error.kind(), ErrorKind::InvalidInput);
        assert!(!path.exists());
    }
    // The file system has no room for so many.
    assert!(create(&path, (1 << 60) - 1).is_err());
    assert!(!path.exists(), "what was made is removed");
    File::create(&path).unwrap();
    assert!(create(&path, (1 << 60) - 1).is_err());
    assert_eq!(fs::metadata(&path).unwrap().len(), 0, "what was there stays, as it was");
}

#[test]
fn what_is_no_regular_file_is_refused_and_not_waited_for() {
    let folder = Folder::new("kinds");
    let (fifo, socket) = (folder.file("fifo"), folder.file("socket"));
    assert!(Command::new("mkfifo").arg(&fifo).status().unwrap().success());
    let _listener = UnixListener::bind(&socket).unwrap();
    for (path, what) in [
        (fifo.as_path(), "it is a FIFO, and no regular file"),
        (&socket, "it is a socket, and no regular file"),
        (Path::new("/dev/zero"), "it is a device, and no regular file"),
        (&folder.0, "it is a folder, and no regular file"),
    ] {
        let errors = [look(path).err(), change(path).err(), create(path, 264).err()];
        for error in errors.into_iter().chain([open_regular(path, OpenOptions::new().read(true)).err()]) {
            assert_eq!(error.unwrap().to_string(), what);
        }
    }
}

#[test]
fn holes_are_0_and_a_file_to_be_written_has_none() {
    let folder = Folder::new("holes");
    let path = folder.file("words");
    let words = words_for(12, 100).unwrap();
    let mut made = create(&path, words).unwrap();
    format(&mut made, 12, 100, ALL).unwrap();
    put(&mut made, 7, 70, ALL).unwrap();
    drop(made);
    let whole = fs::read(&path).unwrap();
    // The same bytes once more, with holes in place of most zeros.
    let sparse = folder.file("sparse");
    let file = File::create(&sparse).unwrap();
    file.set_len(whole.len() as u64).unwrap();
    for (at, bytes) in whole.chunks(4096).enumerate().filter(|(_, bytes)| bytes.iter().any(|byte| *byte != 0)) {
        std::os::unix::fs::FileExt::write_all_at(&file, bytes, 4096 * at as u64).unwrap();
    }
    drop(file);
    let before = taken(&sparse);
    assert!(before < whole.len() as u64, "the file has holes");
    let looked_at = look(&sparse).unwrap();
    assert_eq!(looked_at.bytes(), whole);
    assert_eq!((looked_at.len(), get(&looked_at, 7)), (words, Ok(Some(70))));
    assert_eq!(taken(&sparse), before, "a look takes no space");
    drop(looked_at);
    assert_eq!(get(&change(&sparse).unwrap(), 7), Ok(Some(70)));
    assert!(taken(&sparse) >= whole.len() as u64, "the space is taken");
    assert_eq!(fs::read(&sparse).unwrap(), whole);
}

#[test]
fn a_file_of_zeros_is_new_and_no_other() {
    let folder = Folder::new("new");
    let path = folder.file("words");
    let mut words = create(&path, 264).unwrap();
    assert!(is_new(&words));
    format(&mut words, 2, 2, 66).unwrap_err();
    assert!(is_new(&words), "up to the last store of its first format");
    format(&mut words, 2, 2, ALL).unwrap();
    words[0] = 0;
    assert!(is_new(&words), "an index without a page, too");
    format(&mut words, 2, 2, ALL).unwrap();
    put(&mut words, 7, 70, ALL).unwrap();
    words[0] = 0;
    assert!(!is_new(&words));
}

#[test]
fn mapped_files_go_to_other_threads() {
    fn sent_and_shared<T: Send + Sync>() {}
    sent_and_shared::<MappedFile>();
    sent_and_shared::<MappedFileMut>();
    let folder = Folder::new("threads");
    let path = folder.file("words");
    let mut words = create(&path, 264).unwrap();
    let words = std::thread::spawn(move || {
        format(&mut words, 2, 2, ALL).unwrap();
        put(&mut words, 7, 70, ALL).unwrap();
        words
    });
    let words = words.join().unwrap();
    let found = std::thread::scope(|scope| {
        let looks = [0; 4].map(|_| scope.spawn(|| get(&words, 7)));
        looks.map(|look| look.join().unwrap())
    });
    assert_eq!(found, [Ok(Some(70)); 4]);
}
