//! A file opened to be mapped: a regular one, locked, whose space on the disk is taken before it is written.
use std::ffi::c_int;
use std::fs::{self, File, FileType, OpenOptions, TryLockError};
use std::io::{Error, ErrorKind, Result};
use std::os::fd::AsRawFd;
use std::os::unix::fs::{FileTypeExt, MetadataExt, OpenOptionsExt};
use std::path::Path;

/// Without this flag the opening of a FIFO waits until somebody opens its other end.
const O_NONBLOCK: c_int = 0o4000;

/// The first fields of C's `struct statvfs`, and room for the others.
#[repr(C)]
#[derive(Default)]
struct FileSystem {
    block_bytes: u64,
    fragment_bytes: u64,
    fragments: u64,
    free_fragments: u64,
    others: [u64; 12],
}

extern "C" {
    fn posix_fallocate(file: c_int, offset: i64, bytes: i64) -> c_int;
    fn fstatvfs(file: c_int, found: *mut FileSystem) -> c_int;
}

/// What the system answers on a full disk.
const ENOSPC: i32 = 28;

/// Opens a file by these options, and refuses what is no regular file: a folder, a FIFO, a socket, a device. It waits for
/// nobody, and opens nothing that it then refuses, unless somebody exchanges the file in that moment.
pub fn open_regular(path: impl AsRef<Path>, options: &mut OpenOptions) -> Result<File> {
    match fs::metadata(&path) {
        Ok(found) => must_be_regular(found.file_type())?,
        // The options may say that it is to be made.
        Err(error) if error.kind() == ErrorKind::NotFound => (),
        Err(error) => return Err(error),
    }
    let file = options.custom_flags(O_NONBLOCK).open(path)?;
    must_be_regular(file.metadata()?.file_type())?;
    Ok(file)
}

fn must_be_regular(kind: FileType) -> Result<()> {
    let what = match kind {
        _ if kind.is_file() => return Ok(()),
        _ if kind.is_dir() => "a folder",
        _ if kind.is_fifo() => "a FIFO",
        _ if kind.is_socket() => "a socket",
        _ => "a device",
    };
    Err(Error::new(ErrorKind::InvalidInput, format!("it is {what}, and no regular file")))
}

/// Locks a file, to be read together with others, or to be written alone.
fn lock(file: &File, lock: impl Fn(&File) -> std::result::Result<(), TryLockError>) -> Result<()> {
    match lock(file) {
        Ok(()) => (),
        Err(TryLockError::WouldBlock) => {
            return Err(Error::new(ErrorKind::WouldBlock, "another process has locked it"));
        }
        Err(TryLockError::Error(error)) => return Err(error),
    }
    // Who had the lock before may have removed the file, or put a copy in its place.
    match file.metadata()?.nlink() {
        0 => Err(Error::new(ErrorKind::NotFound, "another process has removed or replaced it just now")),
        _ => Ok(()),
    }
}

/// Whether the disk may have room for the bytes of a file that have no space yet.
fn may_have_space(file: &File, bytes: u64) -> Result<bool> {
    let mut disk = FileSystem::default();
    // SAFETY: the call writes to this value alone, which is longer than what it writes.
    if unsafe { fstatvfs(file.as_raw_fd(), &mut disk) } != 0 {
        return Err(Error::last_os_error());
    }
    // The system counts what a file has in units of 512 bytes.
    let missing = bytes.saturating_sub(file.metadata()?.blocks().saturating_mul(512));
    // A file system that counts nothing says that it has no fragments at all.
    Ok(disk.fragments == 0 || missing <= disk.free_fragments.saturating_mul(disk.fragment_bytes))
}

/// Takes the space of so many bytes on the disk, and changes none. The disk may be full: that is said here, since a
/// store into memory cannot say it. Where it has too little, none is taken: of a long file with holes the system would
/// take all that is left, and keep it.
fn take_space(file: &File, bytes: u64) -> Result<()> {
    // The system takes no empty range.
    if bytes == 0 {
        return Ok(());
    }
    if !may_have_space(file, bytes)? {
        return Err(Error::from_raw_os_error(ENOSPC));
    }
    let bytes = i64::try_from(bytes).map_err(|_| Error::from(ErrorKind::FileTooLarge))?;
    // SAFETY: the call reads and writes no memory of ours.
    match unsafe { posix_fallocate(file.as_raw_fd(), 0, bytes) } {
        0 => Ok(()),
        error => Err(Error::from_raw_os_error(error)),
    }
}

fn to_write() -> OpenOptions {
    let mut options = OpenOptions::new();
    options.read(true).write(true);
    options
}

/// A file that is there, to be read.
pub(super) fn to_look(path: &Path) -> Result<File> {
    let file = open_regular(path, OpenOptions::new().read(true))?;
    lock(&file, File::try_lock_shared)?;
    Ok(file)
}

/// A file that is there, to be written.
pub(super) fn to_change(path: &Path) -> Result<File> {
    let file = open_regular(path, &mut to_write())?;
    lock(&file, File::try_lock)?;
    take_space(&file, file.metadata()?.len())?;
    Ok(file)
}

/// A file of just so many bytes, to be written. It is made where it is not there; one of no bytes gets this length. Where
/// the disk has no space for it, a file that was made is removed, and one of no bytes has none again.
pub(super) fn to_create(path: &Path, bytes: u64) -> Result<File> {
    let (file, made) = match to_write().create_new(true).open(path) {
        Ok(file) => (file, true),
        // A link to a file that is not there also counts as there.
        Err(error) if error.kind() == ErrorKind::AlreadyExists => {
            (open_regular(path, to_write().create(true).truncate(false))?, false)
        }
        Err(error) => return Err(error),
    };
    lock(&file, File::try_lock)?;
    match file.metadata()?.len() {
        0 => give_length(&file, bytes).inspect_err(|_| {
            // What the error says counts, and not whether this works too.
            let _ = if made { fs::remove_file(path) } else { file.set_len(0) };
        })?,
        length if length == bytes => take_space(&file, bytes)?,
        length => {
            let said = format!("it has {length} bytes, and an index of this shape {bytes}");
            return Err(Error::new(ErrorKind::InvalidData, said));
        }
    }
    Ok(file)
}

/// Gives a file of no bytes its length, and takes the space. Its bytes are 0.
fn give_length(file: &File, bytes: u64) -> Result<()> {
    file.set_len(bytes)?;
    take_space(file, bytes)
}

#[cfg(test)]
mod tests {
    use super::*;

    #[test]
    fn a_file_that_was_removed_before_it_was_locked_is_told() {
        let path = std::env::temp_dir().join(format!("page-index-removed-{}", std::process::id()));
        let file = to_write().create_new(true).open(&path).unwrap();
        lock(&file, File::try_lock).unwrap();
        fs::remove_file(&path).unwrap();
        assert_eq!(lock(&file, File::try_lock).unwrap_err().kind(), ErrorKind::NotFound);
    }
}
