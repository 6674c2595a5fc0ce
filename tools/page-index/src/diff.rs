//! `diff`: two files compared, by record, or word by word.
use crate::calls::Ended;
use crate::dump::Dump;
use crate::failure::{Failure, Outcome};
use crate::numbers::counted;
use crate::progress::Progress;
use crate::reading::{Block, Entry, Shape, Slot, State, SEGMENT_WORDS};
use std::collections::BTreeMap;
use std::io::{self, Write};

/// The slots that hold a key live: one, but in a damaged index, where a listing may have a key twice.
type Records = BTreeMap<u64, Vec<Slot>>;

fn records(dump: &Dump) -> Result<Records, Failure> {
    let (shape, blocks) = dump.read()?;
    let mut progress = Progress::new("blocks read");
    let mut records = Records::new();
    for block in &blocks {
        for slot in shape.slots(dump.words, block).filter(|slot| slot.state == State::Live) {
            records.entry(slot.key).or_default().push(slot);
        }
        progress.step();
    }
    Ok(records)
}

/// Says whether the file awaits mending: its records are then those of after it.
fn say_mending(out: &mut dyn Write, dump: &Dump) -> Result<(), Failure> {
    let (_, blocks) = dump.read()?;
    if blocks.iter().any(|block| block.unequal > 0) {
        writeln!(out, "{} awaits mending", dump.path)?;
    }
    Ok(())
}

fn values(slots: &[Slot]) -> Vec<u64> {
    slots.iter().map(|slot| slot.value).collect()
}

fn places(slots: &[Slot]) -> Vec<usize> {
    slots.iter().map(|slot| slot.at).collect()
}

/// The values of a key, mostly one.
fn said(slots: &[Slot]) -> String {
    values(slots).iter().map(u64::to_string).collect::<Vec<_>>().join(" and ")
}

/// Says the records of a file whose keys the other has not, and answers how many there are.
fn say_only(out: &mut dyn Write, dump: &Dump, records: &Records, others: &Records) -> io::Result<usize> {
    let only: Vec<_> = records.iter().filter(|(key, _)| !others.contains_key(key)).collect();
    for (key, slots) in &only {
        writeln!(out, "only in {}: key {key}, value {}", dump.path, said(slots))?;
    }
    Ok(only.len())
}

/// Says the keys of both files that have other values, and answers how many there are.
fn say_other(out: &mut dyn Write, a: &Dump, b: &Dump, both: &[(u64, &[Slot], &[Slot])]) -> io::Result<usize> {
    let other: Vec<_> = both.iter().filter(|(_, slots, others)| values(slots) != values(others)).collect();
    for (key, slots, others) in &other {
        writeln!(out, "another value: key {key}, {} in {}, {} in {}", said(slots), a.path, said(others), b.path)?;
    }
    Ok(other.len())
}

/// Compares the live records of both, and says which differ.
pub fn by_record(out: &mut dyn Write, a: &Dump, b: &Dump) -> Ended {
    let (in_a, in_b) = (records(a)?, records(b)?);
    say_mending(out, a)?;
    say_mending(out, b)?;
    let in_both = |(key, slots)| in_b.get(key).map(|others| (*key, Vec::as_slice(slots), others.as_slice()));
    let both: Vec<_> = in_a.iter().filter_map(in_both).collect();
    let (only_a, only_b) = (say_only(out, a, &in_a, &in_b)?, say_only(out, b, &in_b, &in_a)?);
    let other = say_other(out, a, b, &both)?;
    if only_a + only_b + other == 0 {
        let moved = both.iter().filter(|(_, slots, others)| places(slots) != places(others)).count();
        return same_records(out, a, b, both.len(), moved);
    }
    let same = both.len() - other;
    write!(out, "{only_a} only in {}, {only_b} only in {}, ", a.path, b.path)?;
    writeln!(out, "{other} with another value, {same} the same")?;
    Ok(Outcome::No)
}

/// Says how many of the same records stand in other places, and whether other words differ.
fn same_records(out: &mut dyn Write, a: &Dump, b: &Dump, records: usize, moved: usize) -> Ended {
    let places = match (moved, differing(a, b).count()) {
        (0, 0) => "word for word".to_string(),
        (0, words) => format!("in the same places; other words that differ: {words}"),
        (moved, words) => format!("{moved} of them in other places; words that differ: {words}"),
    };
    writeln!(out, "{} and {} have the same {}, {places}", a.path, b.path, counted(records, "record"))?;
    longer(out, a, b)?;
    Ok(Outcome::Done)
}

/// The words of both files that differ.
fn differing<'a>(a: &'a Dump, b: &'a Dump) -> impl Iterator<Item = usize> + 'a {
    (0..a.words.len().min(b.words.len())).filter(|at| a.words[*at] != b.words[*at])
}

/// Says which file has more words, if one has.
fn longer(out: &mut dyn Write, a: &Dump, b: &Dump) -> io::Result<()> {
    let (longer, shorter) = if a.words.len() > b.words.len() { (a, b) } else { (b, a) };
    match longer.words.len() - shorter.words.len() {
        0 => Ok(()),
        more => writeln!(out, "{} has {} more", longer.path, counted(more, "word")),
    }
}

/// What the words of a file are.
struct Names<'a> {
    dump: &'a Dump<'a>,
    shape: Shape,
    /// The block of each segment, where the directory is not damaged and has one.
    blocks: Vec<Option<Block>>,
}

impl<'a> Names<'a> {
    fn new(dump: &'a Dump) -> Result<Names<'a>, Failure> {
        let shape = dump.shape()?;
        let mut blocks = vec![None; shape.segments];
        for block in shape.blocks(dump.words).unwrap_or_default() {
            blocks[block.entry.segment] = Some(block);
        }
        Ok(Names { dump, shape, blocks })
    }

    /// The segment and the number of the slot at a word, where the word is one of a segment.
    fn slot(&self, at: usize) -> Option<(usize, usize)> {
        let within = at.checked_sub(self.shape.segment_word(0))?;
        (at < self.shape.words()).then_some((within / SEGMENT_WORDS, within % SEGMENT_WORDS / 2))
    }

    /// The place of a word.
    fn place(&self, at: usize) -> String {
        if let Some((segment, slot)) = self.slot(at) {
            return format!("segment {segment}, slot {slot}, {}", ["key", "value"][at % 2]);
        }
        match at {
            0 => "word 0".to_string(),
            _ if at >= self.shape.words() => "behind the index".to_string(),
            _ => {
                let (depth, index) = (at.ilog2(), at - (1 << at.ilog2()));
                let used = if depth == self.shape.depth { "" } else { ", not in use" };
                format!("entry {index} of depth {depth}{used}")
            }
        }
    }

    /// What stands there.
    fn content(&self, at: usize) -> String {
        let word = self.dump.words[at];
        if let Some((segment, number)) = self.slot(at) {
            let state = self.blocks[segment].map(|block| self.shape.slot(self.dump.words, &block, number).state);
            return match state {
                Some(State::Live) => format!("{word} (live)"),
                Some(State::Stale) => format!("{word} (stale)"),
                Some(State::Empty) => format!("{word} (empty)"),
                None => format!("{word} (of no block)"),
            };
        }
        match at {
            0 => self.shape.to_string(),
            _ if at >= self.shape.words() => word.to_string(),
            _ => Entry::from(word).to_string(),
        }
    }
}

/// Says which words differ, and what each is.
pub fn by_word(out: &mut dyn Write, a: &Dump, b: &Dump) -> Ended {
    let (in_a, in_b) = (Names::new(a)?, Names::new(b)?);
    let mut words = 0usize;
    for at in differing(a, b) {
        word(out, &in_a, &in_b, at)?;
        words += 1;
    }
    writeln!(out, "{} and {}: words that differ: {words}", a.path, b.path)?;
    longer(out, a, b)?;
    // The words are told also where a directory is damaged, which is told behind them.
    a.read()?;
    b.read()?;
    Ok(if words == 0 && a.words.len() == b.words.len() { Outcome::Done } else { Outcome::No })
}

fn word(out: &mut dyn Write, a: &Names, b: &Names, at: usize) -> io::Result<()> {
    let (place_a, place_b) = (a.place(at), b.place(at));
    write!(out, "word {at}, byte {}: ", 8 * at)?;
    if place_a == place_b {
        return writeln!(out, "{place_a}: {} | {}", a.content(at), b.content(at));
    }
    writeln!(out, "{place_a}: {} | {place_b}: {}", a.content(at), b.content(at))
}
