//! The calls, by the proved library on the mapped file.
use crate::dump::Dump;
use crate::failure::{Failure, Outcome};
use crate::mending::Mending;
use crate::numbers::counted;
use crate::progress::Progress;
use crate::reading::Shape;
use page_index::mapped::{MappedFile, MappedFileMut};
use page_index::{Refusal, Refused, ALL, BLOCK_WORDS};
use std::io::Write;

/// The words that the records of the most segments take, 4,096.
const MOST_LISTED: usize = 4096 * BLOCK_WORDS;

pub type Ended = Result<Outcome, Failure>;

/// The words of a file, to be looked at.
pub fn open(path: &str) -> Result<MappedFile, Failure> {
    // SAFETY: the lock keeps away every program that locks the file too; --help and README tell operators so.
    unsafe { MappedFile::open(path) }.map_err(|error| Failure::file(path, error))
}

/// The words of a file, to be changed.
pub fn open_to_change(path: &str) -> Result<MappedFileMut, Failure> {
    // SAFETY: as in `open`.
    unsafe { MappedFileMut::open(path) }.map_err(|error| Failure::file(path, error))
}

/// Says the stores of a call that is done.
pub fn stored(out: &mut dyn Write, path: &str, words: &[u64], answer: Result<u32, Refused>) -> Ended {
    let stores = answer.map_err(|refused| Failure::refused(path, words, refused))?;
    writeln!(out, "done, {}", counted(stores as usize, "store"))?;
    Ok(Outcome::Done)
}

/// Says that there is no such key.
fn said_absent(out: &mut dyn Write) -> Ended {
    writeln!(out, "absent")?;
    Ok(Outcome::No)
}

/// Says what a get found, or that there is no such key.
pub fn found(out: &mut dyn Write, path: &str, words: &[u64], answer: Result<Option<u64>, Refused>) -> Ended {
    match answer.map_err(|refused| Failure::refused(path, words, refused))? {
        None => said_absent(out),
        Some(value) => {
            writeln!(out, "{value}")?;
            Ok(Outcome::Done)
        }
    }
}

/// Says the stores of a remove that is done, or that there was no such key.
pub fn removed(out: &mut dyn Write, path: &str, words: &[u64], answer: Result<Option<u32>, Refused>) -> Ended {
    match answer {
        Ok(None) => said_absent(out),
        answer => stored(out, path, words, answer.map(|stores| stores.unwrap_or(0))),
    }
}

pub fn get(out: &mut dyn Write, path: &str, key: u64) -> Ended {
    let words = open(path)?;
    found(out, path, &words, page_index::get(&words, key))
}

pub fn put(out: &mut dyn Write, path: &str, key: u64, value: u64, allowance: u32) -> Ended {
    let mut words = open_to_change(path)?;
    let answer = page_index::put(&mut words, key, value, allowance);
    stored(out, path, &words, answer)
}

pub fn remove(out: &mut dyn Write, path: &str, key: u64, allowance: u32) -> Ended {
    let mut words = open_to_change(path)?;
    let answer = page_index::remove(&mut words, key, allowance);
    removed(out, path, &words, answer)
}

/// An index whose lookups a mend would change was damaged, and is left alone unless it is forced.
fn must_keep_lookups(path: &str, mending: &Mending, force: bool) -> Result<(), Failure> {
    match mending.changes_lookups() && !force {
        false => Ok(()),
        true => {
            let said = "copy the file first, --force mends all the same";
            Err(Failure::damaged(path, format!("damaged: {mending}; {said}")))
        }
    }
}

pub fn mend(out: &mut dyn Write, path: &str, force: bool, allowance: u32) -> Ended {
    let mut words = open_to_change(path)?;
    // Where a leader is not valid the library refuses the mend.
    let mending = Shape::read(&words).and_then(|shape| Ok(Mending::of(&words, &shape, &shape.blocks(&words)?)));
    must_keep_lookups(path, &mending.unwrap_or_default(), force)?;
    let answer = page_index::mend(&mut words, allowance);
    stored(out, path, &words, answer)
}

/// Says what a mend would do, and ends as it would.
pub fn mend_dry(out: &mut dyn Write, path: &str, force: bool) -> Ended {
    let file = open(path)?;
    let dump = Dump::of(path, &file);
    let (shape, blocks) = dump.read()?;
    let mending = Mending::of(dump.words, &shape, &blocks);
    writeln!(out, "a mend has {} to make", counted(mending.stores, "store"))?;
    match mending.changes_lookups() {
        false => writeln!(out, "no lookup would change")?,
        true => writeln!(out, "{mending}")?,
    }
    must_keep_lookups(path, &mending, force)?;
    Ok(Outcome::Done)
}

pub fn merge(out: &mut dyn Write, path: &str, key: u64, allowance: u32) -> Ended {
    let mut words = open_to_change(path)?;
    let answer = page_index::merge(&mut words, key, allowance);
    stored(out, path, &words, answer)
}

/// Merges once at each entry of the directory, and answers how many merges were done.
fn merge_each(words: &mut [u64], progress: &mut Progress) -> Result<usize, Refused> {
    let mut merged = 0;
    // These keys lead to all entries, at the largest depth too.
    for key in (0..1 << 12).map(|i| 16 * i + 1) {
        match page_index::merge(words, key, ALL) {
            Ok(_) => merged += 1,
            Err(Refused { refusal: Refusal::NoBuddy | Refusal::BothLive, .. }) => (),
            Err(refused) => return Err(refused),
        }
        progress.step();
    }
    Ok(merged)
}

/// Merges until nothing merges.
pub fn merge_all(out: &mut dyn Write, path: &str) -> Ended {
    let mut words = open_to_change(path)?;
    let mut progress = Progress::new("merges tried");
    let mut merged = 0;
    loop {
        let more = merge_each(&mut words, &mut progress).map_err(|refused| Failure::refused(path, &words, refused))?;
        if more == 0 {
            writeln!(out, "done, {}", counted(merged, "merge"))?;
            return Ok(Outcome::Done);
        }
        merged += more;
    }
}

pub fn list(out: &mut dyn Write, path: &str) -> Ended {
    let words = open(path)?;
    // As many words as the file has are always enough, and so are those of the most segments.
    let mut list = vec![0; words.len().min(MOST_LISTED)];
    let records = page_index::list(&words, &mut list).map_err(|refused| Failure::refused(path, &words, refused))?;
    for record in list[..2 * records].chunks_exact(2) {
        writeln!(out, "{}\t{}", record[0], record[1])?;
    }
    Ok(Outcome::Done)
}
