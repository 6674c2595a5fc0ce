//! `board`: the month board in a file, by the proved library.
use crate::arguments::number_of;
use crate::calls::{found, open, open_to_change, removed, stored, Ended};
use crate::failure::{Failure, Outcome};
use crate::numbers::number;
use page_index::board::{self, Job};
use std::io::{self, Write};

const MONTHS: [&str; 12] = ["Jan", "Feb", "Mar", "Apr", "May", "Jun", "Jul", "Aug", "Sep", "Oct", "Nov", "Dec"];
/// A year has 12 × 4,096 jobs, and a line at most 30 bytes: month, number and pages, two tabs and a line feed.
const YEAR_BYTES: usize = 12 * 4096 * 30;

/// A month among the arguments: its number, or its name as a print has it.
fn month_of(text: &str) -> Result<u64, Failure> {
    match MONTHS.iter().zip(1..).find(|(name, _)| **name == text) {
        Some((_, number)) => Ok(number),
        None => number(text).ok_or_else(|| Failure::Usage(format!("MONTH {text}: neither a number nor Jan to Dec"))),
    }
}

/// The job of three arguments.
pub fn job_of([year, month, number]: [&str; 3]) -> Result<Job, Failure> {
    Ok(Job { year: number_of("YEAR", year)?, month: month_of(month)?, number: number_of("NUMBER", number)? })
}

pub fn set(out: &mut dyn Write, path: &str, job: Job, pages: u64, allowance: u32) -> Ended {
    let mut words = open_to_change(path)?;
    let answer = board::set(&mut words, job, pages, allowance);
    stored(out, path, &words, answer)
}

pub fn get(out: &mut dyn Write, path: &str, job: Job) -> Ended {
    let words = open(path)?;
    found(out, path, &words, board::read(&words, job))
}

pub fn remove(out: &mut dyn Write, path: &str, job: Job, allowance: u32) -> Ended {
    let mut words = open_to_change(path)?;
    let answer = board::remove(&mut words, job, allowance);
    removed(out, path, &words, answer)
}

/// Prints the jobs of a year, a line each, and on request the sums behind them.
pub fn print(out: &mut dyn Write, path: &str, year: u64, sums: bool) -> Ended {
    let words = open(path)?;
    let mut lines = vec![0; YEAR_BYTES];
    let bytes = board::print(&words, year, &mut lines).map_err(|refused| Failure::refused(path, &words, refused))?;
    out.write_all(&lines[..bytes])?;
    if sums {
        say_sums(out, year, &lines[..bytes])?;
    }
    Ok(Outcome::Done)
}

/// The jobs of a month, or of a year, and their pages. Each is below 2^64, so that no sum of a year passes 2^80.
#[derive(Clone, Copy, Default)]
struct Sum {
    jobs: usize,
    pages: u128,
}

/// The sum of each month of the lines that a print writes.
fn sums_of(lines: &[u8]) -> [Sum; 12] {
    let mut sums = [Sum::default(); 12];
    for line in String::from_utf8_lossy(lines).lines() {
        let (name, pages) = (line.split('\t').next(), line.rsplit('\t').next());
        let month = MONTHS.iter().position(|month| Some(*month) == name);
        if let (Some(month), Some(pages)) = (month, pages.and_then(|pages| pages.parse::<u64>().ok())) {
            sums[month].jobs += 1;
            sums[month].pages += u128::from(pages);
        }
    }
    sums
}

/// Says the sum of each month that has jobs, and that of the year: the word `sum`, the month or the year, the number of
/// jobs, and their pages, parted by tabs.
fn say_sums(out: &mut dyn Write, year: u64, lines: &[u8]) -> io::Result<()> {
    let sums = sums_of(lines);
    for (month, sum) in MONTHS.iter().zip(sums).filter(|(_, sum)| sum.jobs > 0) {
        writeln!(out, "sum\t{month}\t{}\t{}", sum.jobs, sum.pages)?;
    }
    let (jobs, pages) =
        (sums.iter().map(|sum| sum.jobs).sum::<usize>(), sums.iter().map(|sum| sum.pages).sum::<u128>());
    writeln!(out, "sum\t{year}\t{jobs}\t{pages}")
}
