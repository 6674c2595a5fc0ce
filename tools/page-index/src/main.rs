//! `page-index`: looks at an index in a file, compares two, and makes the calls on it. `page-index --help` says how.
mod arguments;
mod board;
mod calls;
mod check;
mod commands;
mod copy;
mod damage;
mod diff;
mod dump;
mod failure;
mod find;
mod findings;
mod formatting;
mod help;
mod json;
mod mending;
mod numbers;
mod progress;
mod putting;
mod reading;
mod restored;
mod show;
mod stat;
mod svg;

#[cfg(test)]
mod agreement;

use calls::Ended;
use failure::{Failure, Outcome};
use std::io::{self, BufWriter, ErrorKind, Write};
use std::process::ExitCode;

fn run(out: &mut dyn Write, given: &[String]) -> Ended {
    let Some((command, rest)) = given.split_first() else {
        return Err(Failure::Usage("a command is needed".to_string()));
    };
    let asked_for = |option: &str| given.iter().any(|argument| argument == option);
    if command == "-h" || command == "help" || asked_for("--help") {
        writeln!(out, "{}", help::help())?;
        return Ok(Outcome::Done);
    }
    if asked_for("--version") {
        writeln!(out, "{}", help::version())?;
        return Ok(Outcome::Done);
    }
    commands::run(out, command, rest)
}

fn main() -> ExitCode {
    let mut out = BufWriter::new(io::stdout().lock());
    let given: Result<Vec<String>, _> = std::env::args_os().skip(1).map(|argument| argument.into_string()).collect();
    let ended = given
        .map_err(|argument| Failure::Usage(format!("{} is not UTF-8", argument.to_string_lossy())))
        .and_then(|given| run(&mut out, &given))
        .and_then(|outcome| match out.flush() {
            Err(error) if error.kind() != ErrorKind::BrokenPipe => Err(Failure::from(error)),
            _ => Ok(outcome),
        });
    match ended {
        Ok(outcome) => ExitCode::from(outcome.status()),
        // Who reads the output has seen enough of it.
        Err(Failure::Output(error)) if error.kind() == ErrorKind::BrokenPipe => ExitCode::SUCCESS,
        Err(failure) => {
            // What was written so far comes first.
            let _ = out.flush();
            failure.tell();
            ExitCode::from(failure.status())
        }
    }
}
