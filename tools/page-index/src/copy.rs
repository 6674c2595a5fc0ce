//! `copy`: a copy of an index, which is whole and on the disk before it replaces the last one.
use crate::calls::{open, Ended};
use crate::check::Checked;
use crate::dump::Dump;
use crate::failure::{Failure, Outcome};
use crate::reading::Shape;
use page_index::mapped::MappedFile;
use std::fs::{self, File, OpenOptions};
use std::io::{Error, ErrorKind, Result, Write};
use std::os::unix::fs::{MetadataExt, OpenOptionsExt};
use std::path::{Path, PathBuf};

/// The file that a copy is to replace, locked, or `None` where there is none. Nobody may be writing it, and unless that is
/// forced it must be an index, or have no bytes.
fn replaced(path: &str, copy: &str, force: bool) -> std::result::Result<Option<MappedFile>, Failure> {
    match fs::symlink_metadata(copy) {
        Err(error) if error.kind() == ErrorKind::NotFound => return Ok(None),
        Err(error) => return Err(Failure::file(copy, error)),
        Ok(_) => (),
    }
    let old = open(copy)?;
    let place = |path: &str| fs::metadata(path).map(|found| (found.dev(), found.ino())).ok();
    if place(path) == place(copy) {
        return Err(Failure::file(copy, "it is the file that is to be copied"));
    }
    if !force && !old.bytes().is_empty() && Shape::read(&old).is_err() {
        return Err(Failure::file(copy, "it is there and no index, and is left as it is; --force replaces it"));
    }
    Ok(Some(old))
}

/// The file beside a copy that has its bytes until it takes the copy's name.
fn part_of(copy: &Path) -> PathBuf {
    let mut name = copy.as_os_str().to_owned();
    name.push(format!(".{}.part", std::process::id()));
    PathBuf::from(name)
}

/// Writes the bytes to a new file, with the rights of the one that is copied, and waits until they are on the disk; then
/// reads them once more.
fn write_part(part: &Path, rights: fs::Permissions, bytes: &[u8]) -> Result<()> {
    let mut file = OpenOptions::new().write(true).create_new(true).mode(0o600).open(part)?;
    file.write_all(bytes)?;
    file.set_permissions(rights)?;
    file.sync_all()?;
    if fs::read(part)? != bytes {
        return Err(Error::new(ErrorKind::InvalidData, "what was written is not what is read"));
    }
    Ok(())
}

/// Writes the bytes beside the copy, and gives them its name. Where that fails, the copy is as it was.
fn write_copy(copy: &Path, rights: fs::Permissions, bytes: &[u8]) -> Result<()> {
    let part = part_of(copy);
    write_part(&part, rights, bytes).and_then(|()| fs::rename(&part, copy)).inspect_err(|_| {
        // What the error says counts, and not whether this works too.
        let _ = fs::remove_file(&part);
    })?;
    // The new name is on the disk when the folder is.
    let folder = copy.parent().filter(|folder| *folder != Path::new("")).unwrap_or(Path::new("."));
    File::open(folder)?.sync_all()
}

/// Copies a file. Where it is damaged, nothing is replaced by it unless that is forced.
pub fn copy(out: &mut dyn Write, path: &str, copy: &str, force: bool) -> Ended {
    let file = open(path)?;
    let old = replaced(path, copy, force)?;
    let Checked { damage, stores } = Checked::of(&Dump::of(path, &file));
    if !damage.is_empty() && !force && old.as_ref().is_some_and(|old| !old.bytes().is_empty()) {
        let said = "damaged, as check tells, and the copy that is there is left as it is; --force replaces it";
        return Err(Failure::damaged(path, said));
    }
    let rights = fs::metadata(path).map_err(|error| Failure::file(path, error))?.permissions();
    // A link is followed: what it names is replaced, and it stays.
    let place = if old.is_some() { fs::canonicalize(copy) } else { Ok(PathBuf::from(copy)) };
    place.and_then(|place| write_copy(&place, rights, file.bytes())).map_err(|error| Failure::file(copy, error))?;
    let state = match (damage.is_empty(), stores) {
        (false, _) => "; it is damaged, as check tells",
        (true, 0) => "",
        (true, _) => "; it awaits mending",
    };
    writeln!(out, "done, {} bytes{state}", file.bytes().len())?;
    Ok(Outcome::Done)
}
