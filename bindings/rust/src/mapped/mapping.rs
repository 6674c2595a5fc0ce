//! The bytes of a file in memory.
use std::ffi::{c_int, c_void};
use std::fs::File;
use std::io::{Error, ErrorKind, Result};
use std::os::fd::AsRawFd;
use std::os::unix::fs::FileExt;
use std::ptr::{null_mut, NonNull};

const PROT_READ: c_int = 1;
const PROT_WRITE: c_int = 2;
const MAP_SHARED: c_int = 1;
const MAP_PRIVATE: c_int = 2;
const MAP_ANONYMOUS: c_int = 0x20;
const MAP_NORESERVE: c_int = 0x4000;
const SEEK_HOLE: c_int = 4;
/// The bytes of a file that are read at once.
const PART: usize = 1 << 20;

extern "C" {
    fn mmap(at: *mut c_void, bytes: usize, may: c_int, flags: c_int, file: c_int, offset: i64) -> *mut c_void;
    fn munmap(at: *mut c_void, bytes: usize) -> c_int;
    fn lseek(file: c_int, offset: i64, whence: c_int) -> i64;
}

/// The bytes of a file, and the file, whose lock ends with it.
pub(super) struct Mapping {
    at: NonNull<u64>,
    bytes: usize,
    file: File,
}

// SAFETY: the memory is the mapping's own, it is the same for every thread, and any thread may give it up. It is written
// through `words_mut` alone, which borrows the mapping as mutable.
unsafe impl Send for Mapping {}
// SAFETY: as above; who shares a mapping reads it.
unsafe impl Sync for Mapping {}

impl Mapping {
    /// Maps a locked file, to be written.
    pub(super) fn to_change(file: File) -> Result<Mapping> {
        Mapping::new(file, PROT_READ | PROT_WRITE, MAP_SHARED)
    }

    /// Maps a locked file, to be read. One with holes is read into memory of its own, where a hole is 0: in a file
    /// system in memory a hole takes space when a mapping is read, and where there is none the process would be ended.
    pub(super) fn to_look(file: File) -> Result<Mapping> {
        if !has_hole(&file, file.metadata()?.len()) {
            return Mapping::new(file, PROT_READ, MAP_SHARED);
        }
        let mut mapping = Mapping::new(file, PROT_READ | PROT_WRITE, MAP_PRIVATE | MAP_ANONYMOUS | MAP_NORESERVE)?;
        mapping.read()?;
        Ok(mapping)
    }

    /// Memory for the bytes of a file. For no bytes there is none: the system maps no empty range.
    fn new(file: File, may: c_int, flags: c_int) -> Result<Mapping> {
        let bytes = usize::try_from(file.metadata()?.len()).map_err(|_| Error::from(ErrorKind::FileTooLarge))?;
        if bytes == 0 {
            return Ok(Mapping { at: NonNull::dangling(), bytes, file });
        }
        let descriptor = if flags & MAP_ANONYMOUS == 0 { file.as_raw_fd() } else { -1 };
        // SAFETY: a new mapping, which the system places where nothing else is.
        let at = unsafe { mmap(null_mut(), bytes, may, flags, descriptor, 0) };
        // A failed mapping is told by the address -1.
        match NonNull::new(at.cast::<u64>()).filter(|at| at.as_ptr() as isize != -1) {
            Some(at) => Ok(Mapping { at, bytes, file }),
            None => Err(Error::last_os_error()),
        }
    }

    /// Reads the bytes of the file, holes as 0. Where the data are is not asked: not every file system says it rightly of
    /// a file that was written just now.
    fn read(&mut self) -> Result<()> {
        // SAFETY: so many bytes are mapped there, to be written, and nobody else knows of them yet.
        let bytes = unsafe { std::slice::from_raw_parts_mut(self.at.as_ptr().cast::<u8>(), self.bytes) };
        let mut read = vec![0; PART];
        for (number, part) in bytes.chunks_mut(PART).enumerate() {
            let read = &mut read[..part.len()];
            self.file.read_exact_at(read, (number * PART) as u64)?;
            // Memory that is not written is 0, and takes none.
            if read.iter().any(|byte| *byte != 0) {
                part.copy_from_slice(read);
            }
        }
        Ok(())
    }

    pub(super) fn bytes(&self) -> &[u8] {
        // SAFETY: so many bytes are mapped there until the drop; who maps them sees to it that nobody else writes them.
        unsafe { std::slice::from_raw_parts(self.at.as_ptr().cast(), self.bytes) }
    }

    pub(super) fn words(&self) -> &[u64] {
        // SAFETY: as in `bytes`; a mapping is aligned, and every content is a word.
        unsafe { std::slice::from_raw_parts(self.at.as_ptr(), self.bytes / 8) }
    }

    /// The words of a mapping that may be written: of one that `to_change` has made.
    pub(super) fn words_mut(&mut self) -> &mut [u64] {
        // SAFETY: as in `words`; the mapping may be written, and is borrowed as mutable.
        unsafe { std::slice::from_raw_parts_mut(self.at.as_ptr(), self.bytes / 8) }
    }
}

impl Drop for Mapping {
    fn drop(&mut self) {
        if self.bytes > 0 {
            // SAFETY: `new` has mapped just these bytes, and nothing borrows them any more.
            unsafe { munmap(self.at.as_ptr().cast(), self.bytes) };
        }
    }
}

/// Whether a file has a hole, as far as the file system says it.
fn has_hole(file: &File, length: u64) -> bool {
    // SAFETY: the call reads and writes no memory of ours.
    let hole = unsafe { lseek(file.as_raw_fd(), 0, SEEK_HOLE) };
    // Where there is none, the end is answered; where nothing can be said, -1.
    u64::try_from(hole).is_ok_and(|hole| hole < length)
}
