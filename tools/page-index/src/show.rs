//! `show`: the directory and its segments, drawn as text, and the records with their places.
use crate::calls::Ended;
use crate::dump::Dump;
use crate::failure::Outcome;
use crate::numbers::counted;
use crate::reading::{Block, Shape, Slot, State, BUCKET_SLOTS};
use std::io::{self, Write};

/// The index of a block, or the first and the last of its indices.
pub fn indices(block: &Block) -> String {
    match block.width {
        1 => block.start.to_string(),
        width => format!("{}..{}", block.start, block.start + width - 1),
    }
}

/// The directory bits that all keys of a block share.
fn prefix(shape: &Shape, block: &Block) -> String {
    match block.entry.depth {
        0 => "-".to_string(),
        depth => format!("{:0width$b}", shape.block_bits(block), width = depth as usize),
    }
}

/// The runs of numbers for which `holds`, as `first..last`.
fn runs(holds: &[bool]) -> String {
    let starts = |number: &usize| holds[*number] && (*number == 0 || !holds[number - 1]);
    let run = |first: usize| {
        let last = first + holds[first..].iter().take_while(|holds| **holds).count() - 1;
        if first == last {
            first.to_string()
        } else {
            format!("{first}..{last}")
        }
    };
    (0..holds.len()).filter(starts).map(run).collect::<Vec<_>>().join(", ")
}

fn mark(slot: &Slot) -> char {
    match slot.state {
        State::Empty => '.',
        State::Live => '#',
        State::Stale => '~',
    }
}

/// The slots of a block, a bucket after the other.
fn drawn(slots: &[Slot]) -> String {
    let bucket = |slots: &[Slot]| slots.iter().map(mark).collect::<String>();
    slots.chunks(BUCKET_SLOTS).map(bucket).collect::<Vec<_>>().join(" ")
}

fn line(out: &mut dyn Write, words: &[u64], shape: &Shape, block: &Block) -> io::Result<()> {
    let slots: Vec<Slot> = shape.slots(words, block).collect();
    let count = |state| slots.iter().filter(|slot| slot.state == state).count();
    let (indices, prefix, entry) = (indices(block), prefix(shape, block), block.entry);
    write!(out, "{indices:<11} {prefix:<12} {:>5} {:>7} ", entry.depth, entry.segment)?;
    write!(out, "{:>4} {:>5}  {}", count(State::Live), count(State::Stale), drawn(&slots))?;
    match block.unequal {
        0 => writeln!(out),
        unequal => writeln!(out, "  {unequal} of its entries to mend"),
    }
}

/// Draws the directory and its segments.
pub fn show(out: &mut dyn Write, dump: &Dump) -> Ended {
    let (shape, blocks) = dump.read()?;
    writeln!(out, "{shape}; {}. Slots, bucket by bucket: # live, ~ stale, . empty", counted(blocks.len(), "block"))?;
    writeln!(out, "index       bits         depth segment live stale  slots")?;
    for block in &blocks {
        line(out, dump.words, &shape, block)?;
    }
    let free: Vec<bool> = shape.named(dump.words).iter().map(|named| !named).collect();
    writeln!(out, "free segments: {}", if free.contains(&true) { runs(&free) } else { "none".to_string() })?;
    Ok(Outcome::Done)
}

/// Writes every record of the blocks' segments with its place, live or stale, a line each, fields parted by tabs.
pub fn records(out: &mut dyn Write, dump: &Dump) -> Ended {
    let (shape, blocks) = dump.read()?;
    writeln!(out, "state\tkey\tvalue\tindex\tsegment\tslot\tbyte")?;
    for block in &blocks {
        for slot in shape.slots(dump.words, block).filter(|slot| slot.state != State::Empty) {
            let state = if slot.state == State::Live { "live" } else { "stale" };
            write!(out, "{state}\t{}\t{}\t{}\t", slot.key, slot.value, block.start)?;
            writeln!(out, "{}\t{}\t{}", block.entry.segment, slot.number, 8 * slot.at)?;
        }
    }
    Ok(Outcome::Done)
}
