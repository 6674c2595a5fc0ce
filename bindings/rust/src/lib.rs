//! The page index: image numbers (keys) and the places of their scans (values) in an array of 64-bit
//! words that keeps its contents when the power goes.
//!
//! Every array and every argument gets an answer; no call touches a word outside the array, allocates
//! or keeps state. A call makes its stores one word at a time in a fixed order, so that a power cut
//! leaves the array as an allowance of so many stores would.
//!
//! ```
//! use page_index::{blocks, format, get, list, mend, merge, put, remove, Refusal, ALL};
//!
//! let mut words = [0u64; 264];
//! assert_eq!(format(&mut words, 2, 2, ALL), Ok(67));
//! assert_eq!(put(&mut words, 7, 70, ALL), Ok(2));
//! assert_eq!(get(&words, 7), Ok(Some(70)));
//!
//! // A put that is allowed one store too few is cut off, and the page keeps its place. Lookups may come before
//! // the mend, other calls wait for it.
//! let cut = put(&mut words, 7, 71, 0).unwrap_err();
//! assert_eq!((cut.refusal, cut.stores), (Refusal::CutOff, 0));
//! assert_eq!(get(&words, 7), Ok(Some(70)));
//! assert_eq!(mend(&mut words, ALL), Ok(0));
//!
//! let mut records = [0u64; 2];
//! assert_eq!(list(&words, &mut records), Ok(1));
//! assert_eq!(records, [7, 70]);
//! assert_eq!(remove(&mut words, 7, ALL), Ok(Some(1)));
//! assert_eq!(remove(&mut words, 7, ALL), Ok(None));
//!
//! // A seventeenth page for sixteen slots takes a second segment. A merge gives it back.
//! for i in 0..17 {
//!     put(&mut words, 7 + 16 * i, i, ALL).unwrap();
//! }
//! let counts: Vec<usize> = blocks(&words).map(|block| block.unwrap().records().count()).collect();
//! assert_eq!(counts, [9, 8]);
//! assert_eq!(merge(&mut words, 7, ALL).unwrap_err().refusal, Refusal::BothLive);
//! assert_eq!(remove(&mut words, 263, ALL), Ok(Some(1)));
//! assert_eq!(merge(&mut words, 7, ALL), Ok(18));
//! assert_eq!(merge(&mut words, 7, ALL).unwrap_err().refusal, Refusal::NoBuddy);
//! assert_eq!(get(&words, 247), Ok(Some(15)));
//! ```
//!
//! [`merge`] joins blocks that hold little, so that later splits can take a segment again. [`list`] lists the
//! whole index, [`blocks()`] and [`list_block`] one block after the other, with 128 words. [`mapped`] keeps the
//! words in a file, and [`board`] the pages of jobs, by year, month and number, in an array of its own.
//!
//! # Choosing sizes and keys
//!
//! An index of largest directory depth D (2 to 12) with S segments (1 to 2^D) takes 2^(D+1) + 128 × S words,
//! [`words_for`]. For 4 MiB, 524,288 words: D = 12, S = 4,032. A segment has 64 slots for a page each; every
//! page has sixteen of them to stand in, and where these are taken the segment is split in two, by one bit more
//! of the keys. Of two depths that both allow S the larger one takes keys that are less even; its directory takes
//! twice the words, and puts take longer once it has become so deep: each reads the whole directory.
//!
//! Every number but 0 is a key, and every number a value. Where a key goes is taken from the low 4 + D bits of its
//! folded key, `key ^ key / 1024`: the low four choose the bucket, the others the segment, bit 4 first. Keys are
//! folded, not hashed: no other bits count. With D = 12 keys that agree in bits 0 to 25 share their sixteen slots
//! for good. So number pages so that the low bits change. Pages that an index of 4 MiB takes, with keys in steps,
//! until a put is refused for the first time:
//!
//! | Keys | Pages | Refused with |
//! |---|---|---|
//! | running numbers | 162,815 | 6 |
//! | in steps of 10 | 52,996 | 5 |
//! | in steps of 16 | 34,752 | 6 |
//! | in steps of 100 | 13,140 | 5 |
//! | in steps of 1,000 | 100,961 | 5 |
//! | in steps of 1,024 | 148,415 | 6 |
//! | in steps of 65,536 | 16,384 | 5 |
//! | in steps of 2^32 | 16 | 5 |
//! | random, twenty draws | 81,648 to 113,343 | 5 |
//!
//! 5, [`Refusal::TooDeep`], is about the one key: its slots hold pages that share all D directory bits, and no room
//! elsewhere helps. Give such pages other numbers, or remove one of those that share the slots, or enter everything
//! into an index with a larger D. 6, [`Refusal::NoSegment`], is about the index: remove pages and [`merge`] until
//! nothing merges, or enter everything into an index with more segments: [`list`] the one and [`put`] each record into
//! the other. After both no page has changed, nothing has to be mended, and other keys may still be put. A key that is
//! there is refused with neither.
//!
//! # At start
//!
//! Format only what is new: in a file, where all words are 0 ([`is_new`]). They are in a file made just now, and stay so
//! to the last store of its first format. Mend all else, and stop where that is refused. [`Refusal::NoStore`] also means
//! a damaged word 0, one that became 0 too, or that the slice is too short: a program that formats there wipes a full
//! index. Pass the whole memory, with the same length at each start, and compute nothing from word 0. (Memory that is no
//! file may hold anything when it is new: who installs it formats it, once. If its word 0 is 0, a format was cut off.)
//!
//! ```
//! use page_index::{format, get, is_new, mend, put, words_for, Refusal, Refused, ALL};
//!
//! fn start(words: &mut [u64]) -> Result<u32, Refused> {
//!     if is_new(words) { format(words, 6, 10, ALL) } else { mend(words, ALL) }
//! }
//!
//! let mut words = vec![0; words_for(6, 10)?];
//! start(&mut words)?;
//! put(&mut words, 7, 70, ALL)?;
//! start(&mut words)?;
//! assert_eq!(get(&words, 7), Ok(Some(70)));
//! // Too short a slice is not new, nor are words of which word 0 alone is 0.
//! assert_eq!(start(&mut words[..1000]).unwrap_err().refusal, Refusal::NoStore);
//! words[0] = 0;
//! assert_eq!(start(&mut words).unwrap_err().refusal, Refusal::NoStore);
//! # Ok::<(), Refused>(())
//! ```
//!
//! # Power cuts
//!
//! After a put, a remove, a merge or a mend that was cut off, by the power or with [`Refusal::CutOff`],
//! lookups are right at once: [`get`] finds every page that was put and acknowledged, and says of every
//! key what it says after the mending. [`put`], [`remove`], [`merge`], [`list`] and [`list_block`] wait:
//! [`mend`] until it is done. While an entry of the directory awaits that, they are refused with
//! [`Refusal::Unmended`] and change nothing; where they are not, there was nothing to mend. A [`format()`]
//! that was cut off is begun anew.
//!
//! # Files and power
//!
//! A mapped file ([`mapped`], `examples/mapped.rs`) survives a process that is killed at any instruction. A power
//! cut is survived by memory that takes the stores in program order and keeps them, as the cabinet's does. A file on
//! a disk is not such memory: the system writes its pages back in any order, in the middle of a call too, and after a
//! power cut later stores may be there and earlier ones not. `msync` between two calls says that all stores until then
//! are on the disk; it gives no order to the stores in the middle of a call, nor to those since the last `msync`.
//! Against such cuts keep copies, made between two calls (`page-index copy` makes one).
//!
//! There is no checksum. [`Refusal::NoStore`] and [`Refusal::Broken`] tell a word 0 that no index has, and a directory
//! that does not fit together. Other damage is not noticed, or looks like a split that was cut off, which a mend takes
//! back: pages may be lost then. Where memory can be damaged keep copies, or a sum of the listing.
//!
//! # Allowances
//!
//! The calls that store take the number of stores that they may make. Pass [`ALL`]. A smaller allowance does what a
//! power cut after so many stores does, for tests: the call is refused with [`Refusal::CutOff`] where more are due.
//! [`mend`] then, before anything is changed, and make the put or the remove again; a merge the mend may have finished.
//!
//! # How large a list array
//!
//! 128 × S words are always enough for [`list`], S being the segments of [`format()`]; so are as many as the index has.
//! Or list it block by block in 128: [`blocks()`].
//!
//! # Two arrays compared
//!
//! Of one array and one call, an allowance larger by one changes at most one word of what is left: the word
//! of the one store more. Two puts that differ in the value alone have the same answer, and what they leave
//! differs at most in the value word of the key's slot; not at all where the put is refused, or cut off before
//! it stores the value.
//!
//! # A store with the old mark
//!
//! A store of before keys were folded has the mark 0x50414745 in the upper half of word 0, in place of 0x50414746:
//! every call but [`format()`] refuses it with [`Refusal::NoStore`] and changes nothing. It is entered anew: listed by
//! the library that made it, formatted, and every record put again. [`format()`] empties a store: what was not listed
//! is lost.
#![warn(missing_docs)]

mod blocks;
pub mod board;
#[cfg(all(target_os = "linux", target_pointer_width = "64"))]
pub mod mapped;

pub use blocks::{blocks, Block, Blocks, BLOCK_WORDS};
use std::error::Error;
use std::fmt;

/// An allowance that cuts no call off.
pub const ALL: u32 = u32::MAX;

/// The version of this crate; the header, the Python module and `page-index` say the same.
pub const VERSION: &str = env!("CARGO_PKG_VERSION");

/// The words that an index of largest directory depth `depth` with `segments` segments takes, 2^(depth + 1) + 128 ×
/// segments. Refused with [`Refusal::BadShape`] where [`format()`] is.
pub const fn words_for(depth: u64, segments: u64) -> Result<usize, Refused> {
    if depth < 2 || depth > 12 || segments < 1 || segments > 1 << depth {
        return Err(Refused { refusal: Refusal::BadShape, stores: 0 });
    }
    Ok((2 << depth) + 128 * segments as usize)
}

/// Whether all words are 0, as they are in a file made just now. Such a file is formatted, every other one mended.
pub fn is_new(words: &[u64]) -> bool {
    words.iter().all(|word| *word == 0)
}

/// The replies that say no, with their numbers. Bad year, month and number are given by the board alone.
#[derive(Clone, Copy, Debug, PartialEq, Eq, Hash)]
#[repr(u32)]
pub enum Refusal {
    /// Word 0 is not that of an index, or has the old mark, or the array is too short for it.
    NoStore = 1,
    /// The key is 0.
    NoKey = 2,
    /// The directory is damaged.
    Broken = 3,
    /// A split or a merge was cut off: mend first.
    Unmended = 4,
    /// The key's slots are full, and its segment has the largest depth.
    TooDeep = 5,
    /// The key's slots are full, and no segment is free.
    NoSegment = 6,
    /// More stores were due than allowed.
    CutOff = 7,
    /// The depth is not 2 to 12, or the number of segments not 1 to 2 to the power of the depth.
    BadShape = 8,
    /// The array has too few words for this shape.
    TooShort = 9,
    /// The list array has fewer than two words for each record, of all or of the one block, or the board's
    /// buffer is shorter than the lines.
    ShortList = 10,
    /// The year is not 1 to 9999.
    BadYear = 11,
    /// The month is not 1 to 12.
    BadMonth = 12,
    /// The number of the job is not 0 to 4095.
    BadNumber = 13,
    /// One block fills the directory, or the other half of the block one depth shallower is split further.
    NoBuddy = 14,
    /// Some slot has a page in both segments.
    BothLive = 15,
    /// No block begins at this index of the directory.
    NoLeader = 16,
}

/// A refusal, and the number of stores that the call made before it.
#[derive(Clone, Copy, Debug, PartialEq, Eq, Hash)]
pub struct Refused {
    /// Which refusal it is.
    pub refusal: Refusal,
    /// The stores made: 0 but for too deep, no segment and cut off.
    pub stores: u32,
}

impl fmt::Display for Refused {
    fn fmt(&self, f: &mut fmt::Formatter<'_>) -> fmt::Result {
        write!(f, "refused ({}: {:?}) after {} stores", self.refusal as u32, self.refusal, self.stores)
    }
}

impl Error for Refused {}

/// C's `struct page_index_reply`.
#[repr(C)]
struct Reply {
    code: u32,
    stores: u32,
    value: u64,
}

const DONE: u32 = 0;
const ABSENT: u32 = 255;

extern "C" {
    fn page_index_format(words: *mut u64, len: usize, depth: u64, segments: u64, allowance: u32) -> Reply;
    fn page_index_get(words: *const u64, len: usize, key: u64) -> Reply;
    fn page_index_put(words: *mut u64, len: usize, key: u64, value: u64, allowance: u32) -> Reply;
    fn page_index_remove(words: *mut u64, len: usize, key: u64, allowance: u32) -> Reply;
    fn page_index_mend(words: *mut u64, len: usize, allowance: u32) -> Reply;
    fn page_index_merge(words: *mut u64, len: usize, key: u64, allowance: u32) -> Reply;
    fn page_index_list(words: *const u64, len: usize, list: *mut u64, list_len: usize) -> Reply;
    fn page_index_list_block(
        words: *const u64,
        len: usize,
        index: u64,
        list: *mut u64,
        list_len: usize,
        next: *mut u64,
    ) -> Reply;
}

fn refusal(code: u32) -> Refusal {
    match code {
        1 => Refusal::NoStore,
        2 => Refusal::NoKey,
        3 => Refusal::Broken,
        4 => Refusal::Unmended,
        5 => Refusal::TooDeep,
        6 => Refusal::NoSegment,
        7 => Refusal::CutOff,
        8 => Refusal::BadShape,
        9 => Refusal::TooShort,
        10 => Refusal::ShortList,
        11 => Refusal::BadYear,
        12 => Refusal::BadMonth,
        13 => Refusal::BadNumber,
        14 => Refusal::NoBuddy,
        15 => Refusal::BothLive,
        16 => Refusal::NoLeader,
        _ => unreachable!("the index answers no code {code}"),
    }
}

/// The reply of a done call, `None` for absent, or the refusal.
fn answered(reply: Reply) -> Result<Option<Reply>, Refused> {
    match reply.code {
        DONE => Ok(Some(reply)),
        ABSENT => Ok(None),
        code => Err(Refused { refusal: refusal(code), stores: reply.stores }),
    }
}

/// The number of stores of a call that is never absent.
fn stores(reply: Reply) -> Result<u32, Refused> {
    answered(reply).map(|done| done.map_or(0, |reply| reply.stores))
}

/// Makes an empty index of largest directory depth `depth` (2 to 12) with `segments` segments, and
/// answers the number of stores, 67.
pub fn format(words: &mut [u64], depth: u64, segments: u64, allowance: u32) -> Result<u32, Refused> {
    // SAFETY: the slice is valid for its length, and nobody else writes it during the call.
    stores(unsafe { page_index_format(words.as_mut_ptr(), words.len(), depth, segments, allowance) })
}

/// The value of the key, or `None` where it has none. It need not wait for a [`mend`].
pub fn get(words: &[u64], key: u64) -> Result<Option<u64>, Refused> {
    // SAFETY: as in `format`; the call only reads.
    let reply = unsafe { page_index_get(words.as_ptr(), words.len(), key) };
    answered(reply).map(|done| done.map(|reply| reply.value))
}

/// Gives the key this value, and answers the number of stores. A new key takes an empty slot; only where
/// none of its sixteen slots is empty, one whose record belongs to another segment: a split has copied it
/// there, or a merge that was cut off has copied it from there.
pub fn put(words: &mut [u64], key: u64, value: u64, allowance: u32) -> Result<u32, Refused> {
    // SAFETY: as in `format`.
    stores(unsafe { page_index_put(words.as_mut_ptr(), words.len(), key, value, allowance) })
}

/// Takes the key's value away, and answers the number of stores, or `None` where it had none.
pub fn remove(words: &mut [u64], key: u64, allowance: u32) -> Result<Option<u32>, Refused> {
    // SAFETY: as in `format`.
    let reply = unsafe { page_index_remove(words.as_mut_ptr(), words.len(), key, allowance) };
    answered(reply).map(|done| done.map(|reply| reply.stores))
}

/// Takes back what a split that was cut off has left in the entries of the directory (one that it doubled stays
/// doubled), finishes a merge that was cut off with its first entry stored, and answers the number of stores: 0 where
/// there was nothing to do, at most 4,096. A merge that was cut off before that has left the directory as it was. No
/// lookup's answer changes, whether the mend is whole or cut off, if the words are not damaged.
pub fn mend(words: &mut [u64], allowance: u32) -> Result<u32, Refused> {
    // SAFETY: as in `format`.
    stores(unsafe { page_index_mend(words.as_mut_ptr(), words.len(), allowance) })
}

/// Makes one block of the key's block and its buddy, the other half of the block one depth shallower, and
/// answers the number of stores, at most 4,224. The pages of both are in the left segment then, and later
/// splits can take the right one. The key, any but 0, stands for its block and need not be stored. No page
/// changes, whether the merge is whole or cut off.
///
/// Refused with [`Refusal::NoBuddy`] where the block has no buddy of its own depth, and then with
/// [`Refusal::BothLive`] where some slot has a page in both segments, neither with a store. One call joins
/// one pair: after a merge the new block may have a buddy too, so it is called again, for this key and for
/// others, until these two are all that it answers. The keys `16 * i + 1` with `i` in `0..1 << depth`, where
/// `depth` is the largest directory depth, lead to all entries.
pub fn merge(words: &mut [u64], key: u64, allowance: u32) -> Result<u32, Refused> {
    // SAFETY: as in `format`.
    stores(unsafe { page_index_merge(words.as_mut_ptr(), words.len(), key, allowance) })
}

/// Writes every record to the list array, each as key, then value, and answers how many there are. Words
/// behind them stay. Records come block by block from the left of the directory, and by rising slot number
/// within a segment; two listings of one untouched index are equal word for word.
pub fn list(words: &[u64], list: &mut [u64]) -> Result<usize, Refused> {
    // SAFETY: as in `format`; the borrow checker keeps the two slices apart.
    let reply = unsafe { page_index_list(words.as_ptr(), words.len(), list.as_mut_ptr(), list.len()) };
    answered(reply).map(|done| done.map_or(0, |reply| reply.value as usize))
}

/// What a listing of one block answers.
#[derive(Clone, Copy, Debug, PartialEq, Eq, Hash)]
pub struct ListedBlock {
    /// The number of the block's records.
    pub records: usize,
    /// The index at which the next block begins, or `None` where this was the last.
    pub next: Option<u64>,
}

/// Lists one block, the one that begins at this index of the directory: writes its records to the list array
/// as [`list`] does, and answers how many there are and where the next block begins. A list array of
/// [`BLOCK_WORDS`] words is always enough. From index 0 on, to the last, the records are those of [`list`], in
/// its order, if nobody changes the index in between; [`blocks()`] does that.
///
/// It reads the whole directory. Behind the refusals of [`list`] for a damaged index comes
/// [`Refusal::NoLeader`] where no block begins at the index, be it within a block or behind the directory's
/// end, and then [`Refusal::ShortList`], for the records of the one block. A refusal leaves the list array as
/// it was.
pub fn list_block(words: &[u64], index: u64, list: &mut [u64]) -> Result<ListedBlock, Refused> {
    let mut next = 0;
    // SAFETY: as in `list`; `next` is a word of its own.
    let reply =
        unsafe { page_index_list_block(words.as_ptr(), words.len(), index, list.as_mut_ptr(), list.len(), &mut next) };
    let records = answered(reply)?.map_or(0, |reply| reply.value as usize);
    // The library names 0 behind the last block.
    Ok(ListedBlock { records, next: (next != 0).then_some(next) })
}
