//! `put FILE -`: the records of standard input, as `list` writes them.
use crate::calls::{open_to_change, Ended};
use crate::failure::{Failure, Outcome};
use crate::numbers::{counted, number};
use crate::progress::Progress;
use page_index::{list_block, Refusal, Refused, ALL, BLOCK_WORDS};
use std::collections::BTreeMap;
use std::io::{self, BufRead, Read, Write};

/// A line of more bytes is no record: two numbers have 41, and this leaves room for blanks and leading zeros.
const LONGEST: usize = 256;

/// The lines of a text, and how many there were. Of a line that is longer than `LONGEST` only one byte more is read.
struct Lines<R> {
    text: R,
    number: usize,
}

impl<R: BufRead> Lines<R> {
    /// The next line without its end, or `None` behind the last.
    fn next(&mut self) -> io::Result<Option<Vec<u8>>> {
        let mut line = Vec::new();
        self.text.by_ref().take(LONGEST as u64 + 1).read_until(b'\n', &mut line)?;
        self.number += 1;
        let some = !line.is_empty();
        line.pop_if(|last| *last == b'\n');
        Ok(some.then_some(line))
    }
}

/// What has become of the lines so far.
#[derive(Default)]
struct Count {
    pages: usize,
    no_record: usize,
    refused: BTreeMap<u32, usize>,
}

impl Count {
    /// What the pages before a line that ends it are told by.
    fn said(&self) -> String {
        match self.pages {
            0 => "nothing was put".to_string(),
            1 => "the page before it stays".to_string(),
            pages => format!("the {pages} pages before it stay"),
        }
    }

    /// How a run to the end ends: a refusal counts before a line that is no record.
    fn ended(&self, out: &mut dyn Write, path: &str) -> Ended {
        let refused: usize = self.refused.values().sum();
        let kinds = self.refused.iter().map(|(number, lines)| format!("lines refused with {number}: {lines}"));
        let passed: Vec<String> = kinds
            .chain((self.no_record > 0).then(|| format!("lines that are no record: {}", self.no_record)))
            .collect();
        let pages = counted(self.pages, "page");
        if passed.is_empty() {
            writeln!(out, "done, {pages}")?;
            return Ok(Outcome::Done);
        }
        let said = format!("{path}: {pages} put; {}", passed.join("; "));
        Err(if refused > 0 { Failure::Refused(said) } else { Failure::File(said) })
    }
}

fn record(line: &[u8]) -> Option<(u64, u64)> {
    let (key, value) = std::str::from_utf8(line).ok()?.trim().split_once(char::is_whitespace)?;
    Some((number(key)?, number(value.trim_start())?))
}

/// Puts the records of a text, a line each. The first line that is refused or no record ends it; with `keep_going` it is
/// said, counted and passed over, unless every other line would be refused too.
pub fn put_lines(out: &mut dyn Write, path: &str, text: impl BufRead, keep_going: bool) -> Ended {
    let mut words = open_to_change(path)?;
    // A damaged index, and one that awaits mending, are refused before anything is read.
    list_block(&words, 0, &mut [0; BLOCK_WORDS]).map_err(|refused| Failure::refused(path, &words, refused))?;
    let (mut lines, mut count) = (Lines { text, number: 0 }, Count::default());
    let mut progress = Progress::new("pages put");
    loop {
        let next = lines.next().map_err(|error| Failure::file("standard input", error).with(count.said()))?;
        let Some(line) = next else { return count.ended(out, path) };
        match put_line(&mut words, &line) {
            Ok(()) => {
                count.pages += 1;
                progress.step();
            }
            Err(stopped) => {
                let at = format!("{path}, line {} of standard input", lines.number);
                let passed = keep_going && stopped.passed(&mut count);
                let failure = stopped.failure(&at, &words);
                if !passed {
                    return Err(failure.with(count.said()));
                }
                failure.tell();
            }
        }
    }
}

/// Why a line was not put.
enum Stopped {
    TooLong,
    NoRecord,
    Refused(Refused),
}

fn put_line(words: &mut [u64], line: &[u8]) -> Result<(), Stopped> {
    if line.len() > LONGEST {
        return Err(Stopped::TooLong);
    }
    let (key, value) = record(line).ok_or(Stopped::NoRecord)?;
    page_index::put(words, key, value, ALL).map(drop).map_err(Stopped::Refused)
}

impl Stopped {
    /// Counts the line, if others behind it may be put: a line without an end may have none behind it, and a damaged
    /// index takes none.
    fn passed(&self, count: &mut Count) -> bool {
        match self {
            Stopped::NoRecord => count.no_record += 1,
            Stopped::Refused(Refused { refusal: Refusal::NoKey | Refusal::TooDeep | Refusal::NoSegment, .. }) => (),
            Stopped::TooLong | Stopped::Refused(_) => return false,
        }
        if let Stopped::Refused(refused) = self {
            *count.refused.entry(refused.refusal as u32).or_default() += 1;
        }
        true
    }

    fn failure(self, at: &str, words: &[u64]) -> Failure {
        match self {
            Stopped::TooLong => Failure::file(at, format!("longer than {LONGEST} bytes, and so no key and a value")),
            Stopped::NoRecord => Failure::file(at, "not a key and a value"),
            Stopped::Refused(refused) => Failure::refused(at, words, refused),
        }
    }
}
