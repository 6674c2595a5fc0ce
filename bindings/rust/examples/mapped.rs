//! Pages kept in a mapped file of 4 MiB, as `bindings/c/mapped_example.c` does it: starts as the crate's
//! documentation says; then a line `key value` of standard input puts a page, and `key` alone removes it. The key is
//! printed when that is done. What is refused is said on standard error.
//!
//!     mapped FILE
//!     mapped --version
use page_index::mapped::MappedFileMut;
use page_index::{blocks, format, is_new, mend, merge, put, remove, words_for, Refusal, Refused, ALL, VERSION};
use std::error::Error;
use std::io::{self, stdin, stdout, BufRead, Read, Write};
use std::process::ExitCode;

const DEPTH: u64 = 12;
const SEGMENTS: u64 = 4032;
/// A line of more bytes is no call.
const LONGEST: usize = 255;

/// The start: a file whose words are all 0 is new, and formatted; every other one is mended, and a refusal ends the
/// program.
fn start(words: &mut [u64]) -> Result<(), Refused> {
    if is_new(words) {
        format(words, DEPTH, SEGMENTS, ALL)?;
        eprintln!("formatted");
    } else {
        eprintln!("mended: {} stores", mend(words, ALL)?);
    }
    Ok(())
}

/// Merges once at each entry of the directory, and answers how many segments came free.
fn merge_each(words: &mut [u64]) -> Result<usize, Refused> {
    let mut merged = 0;
    for i in 0..1 << DEPTH {
        match merge(words, 16 * i + 1, ALL) {
            Ok(_) => merged += 1,
            Err(Refused { refusal: Refusal::NoBuddy | Refusal::BothLive, .. }) => (),
            Err(refused) => return Err(refused),
        }
    }
    Ok(merged)
}

/// Merges until nothing merges.
fn merge_all(words: &mut [u64]) -> Result<usize, Refused> {
    let mut merged = 0;
    loop {
        match merge_each(words)? {
            0 => break,
            more => merged += more,
        }
    }
    eprintln!("merged: {merged} segments came free");
    Ok(merged)
}

/// A put, or a remove where there is no value; whether the page was there.
fn change(words: &mut [u64], key: u64, value: Option<u64>) -> Result<bool, Refused> {
    match value {
        Some(value) => put(words, key, value, ALL).map(|_| true),
        None => remove(words, key, ALL).map(|stores| stores.is_some()),
    }
}

/// The same, with what a refusal asks for: behind 4 and 7 a mend, behind 6 merges, and the call once more.
fn change_surely(words: &mut [u64], key: u64, value: Option<u64>) -> Result<bool, Refused> {
    let mut changed = change(words, key, value);
    if matches!(changed, Err(Refused { refusal: Refusal::Unmended | Refusal::CutOff, .. })) {
        mend(words, ALL)?;
        changed = change(words, key, value);
    }
    if matches!(changed, Err(Refused { refusal: Refusal::NoSegment, .. })) && merge_all(words)? > 0 {
        changed = change(words, key, value);
    }
    changed
}

/// The key of a line, and its value where it has one.
fn call_of(line: &str) -> Option<(u64, Option<u64>)> {
    let number = |field: &str| field.bytes().all(|b| b.is_ascii_digit()).then(|| field.parse().ok()).flatten();
    match *line.split_ascii_whitespace().collect::<Vec<_>>() {
        [key] => Some((number(key)?, None)),
        [key, value] => Some((number(key)?, Some(number(value)?))),
        _ => None,
    }
}

/// The next line, or `None` behind the last. Of one that is too long for a call the rest is passed over: it may have no
/// end.
fn next_line(text: &mut impl BufRead) -> io::Result<Option<String>> {
    let mut line = Vec::new();
    text.take(LONGEST as u64).read_until(b'\n', &mut line)?;
    if line.len() == LONGEST && !line.ends_with(b"\n") {
        text.skip_until(b'\n')?;
        line = b"?".to_vec();
    }
    Ok((!line.is_empty()).then(|| String::from_utf8_lossy(&line).into_owned()))
}

/// Makes the call of a line, and says how it ended. A damaged index ends the program.
fn run_line(words: &mut [u64], number: usize, line: &str) -> Result<(), Refused> {
    let Some((key, value)) = call_of(line) else {
        eprintln!("line {number}: neither `key value` nor `key`");
        return Ok(());
    };
    match change_surely(words, key, value) {
        Ok(true) => println!("{key}"),
        Ok(false) => eprintln!("line {number}: absent"),
        Err(damaged @ Refused { refusal: Refusal::NoStore | Refusal::Broken, .. }) => return Err(damaged),
        Err(refused) => eprintln!("line {number}: {refused}"),
    }
    Ok(())
}

fn run(path: &str) -> Result<(), Box<dyn Error>> {
    // SAFETY: the lock keeps away every program that locks the file too, as the examples in C and Python do.
    let mut words = unsafe { MappedFileMut::open_or_create(path, words_for(DEPTH, SEGMENTS)?) }?;
    start(&mut words)?;
    for number in 1.. {
        let Some(line) = next_line(&mut stdin().lock())? else { break };
        run_line(&mut words, number, &line)?;
        // From here on the caller may count on it.
        stdout().flush()?;
    }
    let mut pages = 0;
    for block in blocks(&words) {
        pages += block?.records().count();
    }
    println!("{pages} pages");
    Ok(())
}

fn main() -> ExitCode {
    let Some(path) = std::env::args().nth(1) else {
        eprintln!("usage: mapped FILE");
        return ExitCode::FAILURE;
    };
    if path == "--version" {
        println!("mapped {VERSION}");
        return ExitCode::SUCCESS;
    }
    match run(&path) {
        Ok(()) => ExitCode::SUCCESS,
        Err(error) => {
            eprintln!("{path}: {error}");
            ExitCode::FAILURE
        }
    }
}
