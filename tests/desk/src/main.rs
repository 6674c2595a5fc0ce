//! The desk program, written a second time from document 01 alone, over the calls of `tests/compare`.
//!
//!     desk_outputs            runs the script of standard input
//!     desk_outputs FOLDER     runs each FOLDER/*.in and writes its output to FOLDER/*.out
//!
//! The outputs in crates/test_desk/data were written by it and never by the program under test.
//! SCRIPTS.md says what each script there is for.
// The desk program makes no merge and no listing of one block.
#[allow(dead_code)]
#[path = "../../compare/src/model.rs"]
mod model;

use model::{perform, Answer, Call, ABSENT, DONE};
use std::io::{self, Read, Write};
use std::path::Path;

/// The words of the index and of the list array, and the bytes of the longest script.
const WORDS: usize = 4160;
const LIST_WORDS: usize = 512;
const MOST_BYTES: usize = 16384;

/// A number: 1 to 20 decimal digits, below 2^64.
fn number(field: &[u8]) -> Option<u64> {
    if field.is_empty() || field.len() > 20 || !field.iter().all(u8::is_ascii_digit) {
        return None;
    }
    std::str::from_utf8(field).ok()?.parse().ok()
}

/// The call of a line, if it is one: a letter and its numbers, parted by single tabs.
fn call_of(line: &[u8]) -> Option<Call> {
    let mut fields = line.split(|&byte| byte == b'\t');
    let letter = fields.next()?;
    let numbers: Vec<u64> = fields.map(number).collect::<Option<_>>()?;
    let allowance = |n: u64| u32::try_from(n).ok();
    match (letter, numbers.as_slice()) {
        (b"F", &[d, s, n]) => Some(Call::Format(d, s, allowance(n)?)),
        (b"P", &[key, value, n]) => Some(Call::Put(key, value, allowance(n)?)),
        (b"G", &[key]) => Some(Call::Get(key)),
        (b"R", &[key, n]) => Some(Call::Remove(key, allowance(n)?)),
        (b"M", &[n]) => Some(Call::Mend(allowance(n)?)),
        (b"L", &[]) => Some(Call::List),
        _ => None,
    }
}

/// The line of an answer: the letter, the reply, the stores made, and the value that a get found or the
/// records that a list has.
fn answer_line(call: Call, answer: Answer) -> String {
    let (letter, with_value) = match call {
        Call::Format(..) => ("F", false),
        Call::Put(..) => ("P", false),
        Call::Get(..) => ("G", true),
        Call::Remove(..) => ("R", false),
        Call::Mend(..) => ("M", false),
        Call::List => ("L", true),
        Call::Merge(..) | Call::ListBlock(..) => unreachable!("the desk program has no letter for {call:?}"),
    };
    let reply = if answer.code == ABSENT { "-".to_string() } else { answer.code.to_string() };
    let value = if with_value && answer.code == DONE { format!("\t{}", answer.value) } else { String::new() };
    format!("{letter}\t{reply}\t{}{value}\n", answer.stores)
}

/// The whole output of a script.
fn run(script: &[u8]) -> String {
    if script.len() > MOST_BYTES {
        return "!\n".to_string();
    }
    let mut words = vec![0; WORDS];
    let mut output = String::new();
    for line in script.split(|&byte| byte == b'\n').filter(|line| !line.is_empty()) {
        output += &match call_of(line) {
            Some(call) => answer_line(call, perform(&mut words, &mut [0; LIST_WORDS], call)),
            None => "?\n".to_string(),
        };
    }
    output
}

/// Writes the output of each script of a folder beside it.
fn write_outputs(folder: &Path) -> io::Result<()> {
    for file in folder.read_dir()? {
        let script = file?.path();
        if script.extension().is_some_and(|extension| extension == "in") {
            std::fs::write(script.with_extension("out"), run(&std::fs::read(&script)?))?;
        }
    }
    Ok(())
}

fn main() -> io::Result<()> {
    if let Some(folder) = std::env::args_os().nth(1) {
        return write_outputs(Path::new(&folder));
    }
    let mut script = Vec::new();
    io::stdin().read_to_end(&mut script)?;
    io::stdout().write_all(run(&script).as_bytes())
}
