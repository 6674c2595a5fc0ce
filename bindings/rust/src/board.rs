//! The month board: the pages scanned for each job, in an array of its own. It is an index whose keys
//! are year × 65,536 + month × 4,096 + number, so [`format`](crate::format) makes the array,
//! [`mend`](crate::mend) mends it, and [`merge`](crate::merge) with a job's key gives a segment back. After a
//! cut [`read`] and [`print()`] are right at once, and say what they say after the mending; [`set`] and [`remove`]
//! wait for the mend.
//!
//! Every job gets an answer: ahead of all other refusals come bad year, bad month and bad number, in this
//! order, with no store made and nothing changed.
//!
//! ```
//! use page_index::board::{print, read, remove, set, Job};
//! use page_index::{format, get, Refusal};
//!
//! const ALL: u32 = u32::MAX;
//! let job = Job { year: 2026, month: 3, number: 7 };
//! let mut words = [0u64; 520];
//! format(&mut words, 2, 4, ALL).unwrap();
//! assert_eq!(set(&mut words, job, 250, ALL), Ok(2));
//! assert_eq!(set(&mut words, Job { month: 1, number: 4095, ..job }, 0, ALL), Ok(2));
//! assert_eq!(set(&mut words, Job { year: 2027, ..job }, 99, ALL), Ok(2));
//! assert_eq!(read(&words, job), Ok(Some(250)));
//! assert_eq!(get(&words, 2026 * 65536 + 3 * 4096 + 7), Ok(Some(250)));
//!
//! // The two lines have 21 bytes, one more than the buffer. Bytes behind printed lines stay.
//! let mut buffer = *b"....................";
//! assert_eq!(print(&words, 2026, &mut buffer).unwrap_err().refusal, Refusal::ShortList);
//! assert_eq!(remove(&mut words, Job { month: 1, number: 4095, ..job }, ALL), Ok(Some(1)));
//! assert_eq!(print(&words, 2026, &mut buffer), Ok(10));
//! assert_eq!(&buffer, b"Mar\t7\t250\n..........");
//! assert_eq!(remove(&mut words, job, ALL), Ok(Some(1)));
//! assert_eq!(remove(&mut words, job, ALL), Ok(None));
//! assert_eq!(print(&words, 2026, &mut []), Ok(0));
//!
//! let refused = |job| read(&words, job).unwrap_err().refusal;
//! assert_eq!(refused(Job { year: 10000, month: 13, number: 4096 }), Refusal::BadYear);
//! assert_eq!(refused(Job { month: 13, number: 4096, ..job }), Refusal::BadMonth);
//! assert_eq!(refused(Job { number: 4096, ..job }), Refusal::BadNumber);
//! ```
//!
//! # How many jobs a board takes
//!
//! In 4 MiB (D = 12, S = 4,032), with the numbers 0 to n − 1 in every month from January 2026 on, in rising order: the
//! jobs until a set is refused for the first time. Then for how many whole years an array is enough, with 2026, 2027, 2028
//! or 2029 as the first, and with the jobs of each year in rising or in random order; more than 64 were not tried.
//! `bench/board.cpp` works it out.
//!
//! | n | Jobs until the first refusal | Its code | It comes in | Years for an array |
//! |---|---|---|---|---|
//! | 50 | 115,229 | 5 | Jan 2218 | 64 |
//! | 100 | 104,515 | 5 | Feb 2113 | 64 |
//! | 128 | 196,736 | 5 | Feb 2154 | 64 |
//! | 200 | 154,000 | 5 | Mar 2090 | 3 |
//! | 256 | 197,120 | 5 | Mar 2090 | 3 |
//! | 300 | 14,714 | 5 | Feb 2030 | 3 |
//! | 500 | 18,520 | 5 | Feb 2029 | 3 |
//! | 1,000 | 40,541 | 5 | May 2029 | 3 |
//! | 2,000 | 96,000 | 5 | Jan 2030 | 3 |
//! | 4,096 | 196,608 | 5 | Jan 2030 | 3 |
//!
//! Where a job goes is taken from 16 bits of its folded key, and there are four slots for each value of these bits. Folding
//! lays bit 0 of the year over bit 6 of the number, and so on, bit 5 over bit 11. With up to 64 numbers each of 64 years
//! has places of its own; with up to 128 two years share their places, with up to 256 four, and with more than 256 eight
//! or more. Four years fill four slots, and only jobs that come in rising order find each its own. So take another array
//! every three years; or every 64, where no month has other numbers than 0 to 127.
use crate::{answered, stores, Refused, Reply};

/// A job: its year (1 to 9999), its month (1 to 12) and its number (0 to 4095).
#[derive(Clone, Copy, Debug, PartialEq, Eq, Hash)]
pub struct Job {
    /// The year, 1 to 9999.
    pub year: u64,
    /// The month, 1 to 12.
    pub month: u64,
    /// The number, 0 to 4095.
    pub number: u64,
}

extern "C" {
    fn month_board_set(
        words: *mut u64,
        len: usize,
        year: u64,
        month: u64,
        number: u64,
        pages: u64,
        allowance: u32,
    ) -> Reply;
    fn month_board_read(words: *const u64, len: usize, year: u64, month: u64, number: u64) -> Reply;
    fn month_board_remove(words: *mut u64, len: usize, year: u64, month: u64, number: u64, allowance: u32) -> Reply;
    fn month_board_print(words: *const u64, len: usize, year: u64, buffer: *mut u8, buffer_len: usize) -> Reply;
}

/// Sets the pages of the job, as [`put`](crate::put) does with its key, and answers the number of stores.
pub fn set(words: &mut [u64], job: Job, pages: u64, allowance: u32) -> Result<u32, Refused> {
    let Job { year, month, number } = job;
    // SAFETY: the slice is valid for its length, and nobody else writes it during the call.
    stores(unsafe { month_board_set(words.as_mut_ptr(), words.len(), year, month, number, pages, allowance) })
}

/// The pages of the job, or `None` where there is no such job.
pub fn read(words: &[u64], job: Job) -> Result<Option<u64>, Refused> {
    // SAFETY: as in `set`; the call only reads.
    let reply = unsafe { month_board_read(words.as_ptr(), words.len(), job.year, job.month, job.number) };
    answered(reply).map(|done| done.map(|reply| reply.value))
}

/// Takes the job away, and answers the number of stores, or `None` where there was no such job.
pub fn remove(words: &mut [u64], job: Job, allowance: u32) -> Result<Option<u32>, Refused> {
    let Job { year, month, number } = job;
    // SAFETY: as in `set`.
    let reply = unsafe { month_board_remove(words.as_mut_ptr(), words.len(), year, month, number, allowance) };
    answered(reply).map(|done| done.map(|reply| reply.stores))
}

/// Prints the jobs of the year into the buffer, and answers the number of bytes. Each job that [`read`]
/// finds is a line: the month's name (Jan to Dec), a tab, the number, a tab, the pages, a line feed; months
/// rise, and numbers rise within a month. Bytes behind the lines stay; a refused print leaves them all.
pub fn print(words: &[u64], year: u64, buffer: &mut [u8]) -> Result<usize, Refused> {
    // SAFETY: as in `set`; the borrow checker keeps the two slices apart.
    let reply = unsafe { month_board_print(words.as_ptr(), words.len(), year, buffer.as_mut_ptr(), buffer.len()) };
    answered(reply).map(|done| done.map_or(0, |reply| reply.value as usize))
}
