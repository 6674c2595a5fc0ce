//! What can be wrong with word 0 and with the directory.
use crate::numbers::counted;
use crate::reading::{Entry, Shape};
use std::fmt;

/// Why a file is no index, or a damaged one.
#[derive(Clone, Copy, Debug, PartialEq, Eq)]
pub enum Damage {
    NoWords,
    /// Word 0 is 0, and so many others are not.
    Word0 {
        others: usize,
    },
    OldMark,
    NoMark {
        word: u64,
    },
    BadShape {
        shape: Shape,
    },
    TooShort {
        needs: usize,
        has: usize,
    },
    EntryOutOfRange {
        index: usize,
        at: usize,
        entry: Entry,
    },
    LeaderNotAligned {
        index: usize,
        at: usize,
        entry: Entry,
    },
}

impl fmt::Display for Damage {
    fn fmt(&self, f: &mut fmt::Formatter<'_>) -> fmt::Result {
        match self {
            Damage::NoWords => write!(f, "no index: the file has not one word of eight bytes"),
            Damage::Word0 { others: 0 } => write!(f, "no index: all words are 0, so it was never formatted"),
            Damage::Word0 { others } => {
                write!(f, "damaged, or a format was cut off: word 0 is 0, and {} not 0", of_others(*others))
            }
            Damage::OldMark => {
                write!(f, "word 0 has the mark 0x50414745 of before keys were folded: such a store is entered anew")
            }
            Damage::NoMark { word } => {
                write!(f, "no index, or damaged: word 0 is {word:#018x}, whose upper half is not 0x50414746")
            }
            Damage::BadShape { shape } => write!(f, "damaged: word 0 says {shape}, and no index has this shape"),
            Damage::TooShort { needs, has } => {
                write!(f, "damaged or cut short: word 0 asks for {needs} words, and the file has {has}")
            }
            Damage::EntryOutOfRange { index, at, entry } => {
                write!(
                    f,
                    "damaged: entry {index} of the directory (byte {}) says {entry}, which is out of range",
                    8 * at
                )
            }
            Damage::LeaderNotAligned { index, at, entry } => {
                write!(
                    f,
                    "damaged: entry {index} of the directory (byte {}) says {entry}, and no block of that depth begins there",
                    8 * at
                )
            }
        }
    }
}

/// So many other words, with the verb.
fn of_others(number: usize) -> String {
    format!("{} {}", counted(number, "other word"), if number == 1 { "is" } else { "are" })
}
