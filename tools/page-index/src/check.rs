//! `check`: all that is wrong with an index, a line for each finding.
use crate::calls::Ended;
use crate::damage::Damage;
use crate::dump::Dump;
use crate::failure::Outcome;
use crate::findings::{Findings, Stray};
use crate::numbers::counted;
use crate::reading::{Block, Shape};
use crate::restored;
use std::io::{self, ErrorKind, Write};

/// What is found in a file.
pub struct Checked {
    /// The damage, a sentence each.
    pub damage: Vec<String>,
    /// The stores that a mend has to make.
    pub stores: usize,
}

impl Checked {
    pub fn of(dump: &Dump) -> Checked {
        let mut checked = Checked { damage: Vec::new(), stores: 0 };
        match Shape::read(dump.words) {
            Ok(shape) => checked.add_index(dump, &shape),
            Err(damage) => {
                checked.add(damage);
                if dump.has_lost_word_0() {
                    checked.add(format!("word 0 put right: {}", restored::said(dump.words)));
                }
            }
        }
        match dump.bytes.len() % 8 {
            0 => (),
            behind => checked.add(format!("damaged: bytes behind the last whole word: {behind}")),
        }
        checked
    }

    fn add(&mut self, damage: impl ToString) {
        self.damage.push(damage.to_string());
    }

    /// Adds what is found in a file with a valid word 0.
    fn add_index(&mut self, dump: &Dump, shape: &Shape) {
        for index in 0..shape.entries() {
            if let Err(damage) = shape.entry(dump.words, index) {
                self.add(damage);
            }
        }
        match shape.blocks(dump.words) {
            Ok(blocks) => self.add_findings(&Findings::of(dump.words, shape, &blocks)),
            // This one has been said.
            Err(Damage::EntryOutOfRange { .. }) => (),
            Err(damage) => self.add(damage),
        }
        match dump.words.len() - shape.words() {
            0 => (),
            more => self.add(format!("damaged: words behind the index, which D and S do not explain: {more}")),
        }
    }

    /// Adds what is found in an index with valid leaders.
    fn add_findings(&mut self, findings: &Findings) {
        self.damage.extend(findings.shared.iter().map(of_shared));
        self.damage.extend(findings.strays.iter().map(of_stray));
        match findings.mending.lookups {
            0 => (),
            lookups => self.add(format!("damaged: lookups that a mend changes: {lookups}")),
        }
        self.stores = findings.mending.stores;
    }
}

fn of_shared((block, first): &(Block, usize)) -> String {
    let (segment, start) = (block.entry.segment, block.start);
    format!("damaged: segment {segment} is named by the block at index {start}, and by that at index {first}")
}

fn of_stray(stray: &Stray) -> String {
    let Stray { segment, slot, first } = stray;
    let why = match first {
        None => "it stands outside the window of its key".to_string(),
        Some(first) => format!("the same key stands before it, in slot {first}"),
    };
    let place = format!("segment {segment}, slot {} (byte {})", slot.number, 8 * slot.at);
    format!("damaged: no lookup finds key {}, value {}, in {place}: {why}", slot.key, slot.value)
}

fn say(out: &mut dyn Write, checked: &Checked) -> io::Result<()> {
    for found in &checked.damage {
        writeln!(out, "{found}")?;
    }
    match checked.stores {
        0 if checked.damage.is_empty() => writeln!(out, "nothing found"),
        0 => Ok(()),
        stores => writeln!(out, "awaits mending: a mend has {} to make", counted(stores, "store")),
    }
}

pub fn check(out: &mut dyn Write, dump: &Dump) -> Ended {
    let checked = Checked::of(dump);
    match say(out, &checked) {
        // Who reads the lines has seen enough of them. The exit code tells the same.
        Err(error) if error.kind() == ErrorKind::BrokenPipe => (),
        said => said?,
    }
    Ok(match checked.stores {
        _ if !checked.damage.is_empty() => Outcome::Damaged,
        0 => Outcome::Done,
        _ => Outcome::Unmended,
    })
}
