//! The month board written from document 02 alone, over the calls of the model.
use crate::model::{self, Answer, Call};
use page_index::board::Job;
use std::fmt::Write;

const MONTHS: [&str; 12] = ["Jan", "Feb", "Mar", "Apr", "May", "Jun", "Jul", "Aug", "Sep", "Oct", "Nov", "Dec"];

/// One call but a print, with its arguments.
#[derive(Clone, Copy, Debug)]
pub enum BoardCall {
    Set(Job, u64, u32),
    Read(Job),
    Remove(Job, u32),
}

fn refused(code: u32) -> Answer {
    Answer::new(code, 0, 0)
}

/// The job's key, or the first of the refusals 11, 12 and 13 that it earns.
fn key(job: Job) -> Result<u64, u32> {
    let good = [(1..=9999).contains(&job.year), (1..=12).contains(&job.month), (0..=4095).contains(&job.number)];
    match good.iter().position(|&is_good| !is_good) {
        Some(first_bad) => Err(11 + first_bad as u32),
        None => Ok(key_of(job.year, job.month, job.number)),
    }
}

pub fn key_of(year: u64, month: u64, number: u64) -> u64 {
    year * 65_536 + month * 4_096 + number
}

/// Makes a call on the array.
pub fn perform(words: &mut [u64], call: BoardCall) -> Answer {
    let of_index = match call {
        BoardCall::Set(job, pages, n) => key(job).map(|key| Call::Put(key, pages, n)),
        BoardCall::Read(job) => key(job).map(Call::Get),
        BoardCall::Remove(job, n) => key(job).map(|key| Call::Remove(key, n)),
    };
    of_index.map_or_else(refused, |call| model::perform(words, &mut [], call))
}

/// The lines of a year, or the refusal of the year or of a lookup.
pub fn lines(words: &[u64], year: u64) -> Result<String, u32> {
    let mut text = String::new();
    for (month, name) in (1..).zip(MONTHS) {
        for number in 0..=4095 {
            if let Some(pages) = model::get(words, key(Job { year, month, number })?)? {
                writeln!(text, "{name}\t{number}\t{pages}").expect("a string takes every line");
            }
        }
    }
    Ok(text)
}

/// Prints such lines into a buffer.
pub fn print(lines: &Result<String, u32>, buffer: &mut [u8]) -> Answer {
    match lines {
        Err(code) => refused(*code),
        Ok(text) if text.len() > buffer.len() => refused(10),
        Ok(text) => {
            buffer[..text.len()].copy_from_slice(text.as_bytes());
            Answer::new(model::DONE, 0, text.len() as u64)
        }
    }
}
