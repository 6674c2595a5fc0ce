//! How a command ends: the exit codes, and what is said on standard error.
use crate::numbers::counted;
use crate::reading::Shape;
use page_index::{Refusal, Refused};
use std::fmt;
use std::io;

/// How a command ends that could be carried out.
#[derive(Clone, Copy, Debug, PartialEq, Eq)]
pub enum Outcome {
    Done,
    /// The key is absent, or the two files differ.
    No,
    /// Damage was found, and said.
    Damaged,
    /// It was said that the index awaits mending.
    Unmended,
}

/// Why a command could not be carried out.
#[derive(Debug)]
pub enum Failure {
    Usage(String),
    /// A file, or standard input, could not be opened, locked, read or written.
    File(String),
    /// No index, or a damaged one: nothing was written.
    Damaged(String),
    /// The call waits for a mend: nothing was written.
    Unmended(String),
    /// Another refusal of the library.
    Refused(String),
    /// What is written could not be written.
    Output(io::Error),
}

pub const EXIT_CODES: &str = "\
Exit codes:
  0  done
  1  the key or the job is absent; diff: the records differ, with --words the words
  2  wrong arguments
  3  a file cannot be opened, locked, read or written; put: a line of standard input is no record
  4  no index, or a damaged one: replies 1 and 3, and what stat, check, find, mend and copy see; nothing is written
  5  the index awaits mending (reply 4, and check); nothing is written
  6  another refusal, which the message names";

impl Outcome {
    pub fn status(self) -> u8 {
        match self {
            Outcome::Done => 0,
            Outcome::No => 1,
            Outcome::Damaged => 4,
            Outcome::Unmended => 5,
        }
    }
}

impl Failure {
    pub fn status(&self) -> u8 {
        match self {
            Failure::Usage(_) => 2,
            Failure::File(_) | Failure::Output(_) => 3,
            Failure::Damaged(_) => 4,
            Failure::Unmended(_) => 5,
            Failure::Refused(_) => 6,
        }
    }

    pub fn file(path: &str, error: impl fmt::Display) -> Failure {
        Failure::File(format!("{path}: {error}"))
    }

    pub fn damaged(path: &str, why: impl fmt::Display) -> Failure {
        Failure::Damaged(format!("{path}: {why}"))
    }

    /// The same, with one thing more said.
    pub fn with(self, more: String) -> Failure {
        let and = |said| format!("{said}; {more}");
        match self {
            Failure::Usage(said) => Failure::Usage(and(said)),
            Failure::File(said) => Failure::File(and(said)),
            Failure::Damaged(said) => Failure::Damaged(and(said)),
            Failure::Unmended(said) => Failure::Unmended(and(said)),
            Failure::Refused(said) => Failure::Refused(and(said)),
            Failure::Output(error) => Failure::Output(error),
        }
    }

    /// Says it on standard error.
    pub fn tell(&self) {
        eprintln!("page-index: {self}");
    }

    /// A refusal of the library, with what the words show of its reason.
    pub fn refused(path: &str, words: &[u64], refused: Refused) -> Failure {
        let said = format!("{path}: refused with {}, {}", refused.refusal as u32, reason(refused.refusal));
        let seen = Shape::read(words).and_then(|shape| shape.check_directory(words)).err();
        match (refused.refusal, seen) {
            (Refusal::NoStore | Refusal::Broken, Some(damage)) => Failure::damaged(path, damage),
            (Refusal::NoStore | Refusal::Broken, None) => Failure::Damaged(said),
            (Refusal::Unmended, _) => Failure::Unmended(said),
            _ if refused.stores == 0 => Failure::Refused(said),
            _ => Failure::Refused(format!("{said} ({} made)", counted(refused.stores as usize, "store"))),
        }
    }
}

impl fmt::Display for Failure {
    fn fmt(&self, f: &mut fmt::Formatter<'_>) -> fmt::Result {
        match self {
            Failure::Usage(said) => write!(f, "{said}; page-index --help says more"),
            Failure::Output(error) => write!(f, "cannot write: {error}"),
            Failure::File(said) | Failure::Damaged(said) | Failure::Unmended(said) | Failure::Refused(said) => {
                f.write_str(said)
            }
        }
    }
}

impl From<io::Error> for Failure {
    fn from(error: io::Error) -> Failure {
        Failure::Output(error)
    }
}

/// The word for a refusal, and what to do about it.
fn reason(refusal: Refusal) -> &'static str {
    match refusal {
        Refusal::NoStore => "no store",
        Refusal::NoKey => "no key: 0 is none",
        Refusal::Broken => "broken: the directory is damaged",
        Refusal::Unmended => "unmended: a call was cut off, or an entry is damaged, which stat tells; mend first",
        Refusal::TooDeep => {
            "too deep: the pages in this key's slots share every directory bit; other keys may find room"
        }
        Refusal::NoSegment => "no segment: the index is full here; remove pages and merge, or take more segments",
        Refusal::CutOff => {
            "cut off: more stores were due than allowed; a format is made again, after any other call mend first"
        }
        Refusal::BadShape => "bad shape: D is 2 to 12, S is 1 to 2^D",
        Refusal::TooShort => "too short: the file has fewer than 2^(D+1) + 128 * S words",
        Refusal::ShortList => "short list",
        Refusal::BadYear => "bad year: a year is 1 to 9999",
        Refusal::BadMonth => "bad month: a month is 1 to 12",
        Refusal::BadNumber => "bad number: that of a job is 0 to 4095",
        Refusal::NoBuddy => "no buddy: one block fills the directory, or the other half is split further",
        Refusal::BothLive => "both live: some slot has a page in both segments",
        Refusal::NoLeader => "no leader",
    }
}
