//! `format`: an empty index, in a file that is new.
use crate::calls::{open_to_change, stored, Ended};
use crate::failure::Failure;
use crate::reading::{not_zero, Shape};
use crate::restored;
use page_index::mapped::MappedFileMut;
use std::io::Write;

/// The words for a new index. A file that is not there is made, and one of no bytes gets a length: just these words.
fn open_to_format(path: &str, len: usize) -> Result<MappedFileMut, Failure> {
    if std::fs::metadata(path).is_ok_and(|file| file.len() > 0) {
        return open_to_change(path);
    }
    // SAFETY: as in `calls::open`.
    unsafe { MappedFileMut::open_or_create(path, len) }.map_err(|error| Failure::file(path, error))
}

/// What is there in a file that is not new: it is new where all its words are 0, as they are to the last store of its
/// first format. Where word 0 alone is 0, an index may be damaged, or a format that empties one was cut off; both may be
/// put right.
fn seen(words: &[u64]) -> Option<String> {
    match (Shape::read(words), not_zero(words)) {
        (_, 0) => None,
        (Ok(shape), _) => Some(format!("an index is there ({shape})")),
        (Err(damage), _) if words[0] == 0 => Some(format!("{damage}; {}", restored::said(words))),
        (Err(damage), _) => Some(damage.to_string()),
    }
}

pub fn format(out: &mut dyn Write, path: &str, (depth, segments): (u64, u64), force: bool, allowance: u32) -> Ended {
    // No file is made for a bad shape.
    let len = page_index::words_for(depth, segments).map_err(|refused| Failure::refused(path, &[], refused))?;
    let mut words = open_to_format(path, len)?;
    // Whether the file is new is told by its words, once nobody else can write them.
    let seen = if force { None } else { seen(&words) };
    if let Some(seen) = seen {
        let said = "a format empties what is there; --force does it";
        return Err(Failure::Refused(format!("{path}: not new: {seen}; {said}")));
    }
    let answer = page_index::format(&mut words, depth, segments, allowance);
    stored(out, path, &words, answer)
}
