//! The words of a file, mapped into memory: what is stored there is in the file also if the process is killed.
//!
//! A file is locked as long as it is mapped (`flock`): one process writes it, or several read it. What is no regular file
//! is refused, and nothing is waited for. Bytes behind the last whole word are no words.
//!
//! Space on the disk is taken whenever a file is opened to be written: on a full disk that is refused, and no store ends
//! the process later. To be read, a file needs none: its holes are 0.
//!
//! A file is new where all its words are 0 ([`is_new`](crate::is_new)). A file whose word 0 alone is 0 is a damaged one.
//!
//! ```
//! use page_index::mapped::{MappedFile, MappedFileMut};
//! use page_index::{format, get, is_new, put, words_for, ALL};
//!
//! let path = std::env::temp_dir().join(format!("mapped-{}", std::process::id()));
//! // SAFETY: only this process knows the file.
//! let mut words = unsafe { MappedFileMut::open_or_create(&path, words_for(2, 2).unwrap()) }?;
//! assert!(is_new(&words));
//! format(&mut words, 2, 2, ALL).unwrap();
//! put(&mut words, 7, 70, ALL).unwrap();
//! // SAFETY: as above.
//! assert!(unsafe { MappedFile::open(&path) }.is_err(), "it is locked");
//! drop(words);
//! // SAFETY: as above.
//! let words = unsafe { MappedFile::open(&path) }?;
//! // A mapped file may be sent to another thread, and be shared by several.
//! let looked_up = std::thread::spawn(move || get(&words, 7)).join().unwrap();
//! assert_eq!(looked_up, Ok(Some(70)));
//! std::fs::remove_file(&path)?;
//! # Ok::<(), std::io::Error>(())
//! ```
mod mapping;
mod opening;

use mapping::Mapping;
pub use opening::open_regular;
use std::io::{Error, ErrorKind, Result};
use std::ops::{Deref, DerefMut};
use std::path::Path;

/// The words of a file, to be read.
pub struct MappedFile(Mapping);

impl MappedFile {
    /// Maps a file that is there. No word of it is written.
    ///
    /// # Safety
    ///
    /// Nobody writes or shortens the file while it is mapped. The lock keeps those away who lock it too.
    pub unsafe fn open(path: impl AsRef<Path>) -> Result<MappedFile> {
        Mapping::to_look(opening::to_look(path.as_ref())?).map(MappedFile)
    }

    /// All bytes of the file, also those behind the last whole word.
    pub fn bytes(&self) -> &[u8] {
        self.0.bytes()
    }
}

impl Deref for MappedFile {
    type Target = [u64];

    fn deref(&self) -> &[u64] {
        self.0.words()
    }
}

/// The words of a file, to be read and written.
pub struct MappedFileMut(Mapping);

impl MappedFileMut {
    /// Maps a file that is there, once its space on the disk is taken.
    ///
    /// # Safety
    ///
    /// As for [`MappedFile::open`].
    pub unsafe fn open(path: impl AsRef<Path>) -> Result<MappedFileMut> {
        Mapping::to_change(opening::to_change(path.as_ref())?).map(MappedFileMut)
    }

    /// Maps a file of just so many words, which is made if it is not there. A file of no bytes counts as one made
    /// just now, since a process may be killed before it has given the file its length; its words are 0. Where the disk
    /// is full, a file that was made is removed again, and one of no bytes has none again. A file of another length is
    /// refused and stays as it is.
    ///
    /// # Safety
    ///
    /// As for [`MappedFile::open`].
    pub unsafe fn open_or_create(path: impl AsRef<Path>, words: usize) -> Result<MappedFileMut> {
        // No file is longer than 2^63 - 1 bytes.
        let bytes = (words as u64).checked_mul(8).filter(|bytes| i64::try_from(*bytes).is_ok());
        let bytes = bytes.ok_or_else(|| Error::new(ErrorKind::InvalidInput, format!("no file has {words} words")))?;
        Mapping::to_change(opening::to_create(path.as_ref(), bytes)?).map(MappedFileMut)
    }
}

impl Deref for MappedFileMut {
    type Target = [u64];

    fn deref(&self) -> &[u64] {
        self.0.words()
    }
}

impl DerefMut for MappedFileMut {
    fn deref_mut(&mut self) -> &mut [u64] {
        self.0.words_mut()
    }
}
