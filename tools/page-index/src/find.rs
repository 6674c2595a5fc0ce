//! `find`: where a key is looked for, word by word.
use crate::calls::Ended;
use crate::damage::Damage;
use crate::dump::Dump;
use crate::failure::{Failure, Outcome};
use crate::mending::Mending;
use crate::reading::{bucket, directory_bits, folded, Entry, Shape, Slot, State};
use page_index::{Refusal, Refused};
use std::io::{self, Write};

/// Where a key is looked for: its entry, and the sixteen slots of its window in the order of the search.
pub struct Found {
    pub index: usize,
    pub entry: Entry,
    pub window: Vec<Slot>,
}

impl Found {
    /// Follows the key as a get does, or says that its entry is out of range.
    pub fn look(words: &[u64], shape: &Shape, key: u64) -> Result<Found, Damage> {
        let index = directory_bits(key, shape.depth);
        let entry = shape.entry(words, index)?;
        let block = shape.block_at(index, entry);
        let window = Shape::window(key).map(|slot| shape.slot(words, &block, slot)).collect();
        Ok(Found { index, entry, window })
    }

    /// The first slot of the window with the key.
    pub fn hit(&self, key: u64) -> Option<&Slot> {
        self.window.iter().find(|slot| slot.key == key)
    }
}

/// What is said of a slot of the window.
fn said(found: &Found, slot: &Slot, key: u64) -> String {
    let hit = found.hit(key).is_some_and(|hit| hit.number == slot.number);
    match slot.state {
        _ if hit => format!("this key, value {}", slot.value),
        State::Empty => "empty".to_string(),
        State::Live => format!("live: key {}, value {}", slot.key, slot.value),
        State::Stale => format!("stale: key {}, value {}", slot.key, slot.value),
    }
}

fn bits(number: usize, count: u32) -> String {
    match count {
        0 => "none".to_string(),
        _ => format!("{number:0width$b}", width = count as usize),
    }
}

/// Says how the key leads to its entry and to its segment.
fn say_way(out: &mut dyn Write, shape: &Shape, key: u64, found: &Found) -> io::Result<()> {
    let (entry, segment) = (found.entry, found.entry.segment);
    writeln!(out, "entry           {} at byte {}: {entry}", found.index, 8 * shape.entry_word(found.index))?;
    writeln!(out, "segment         {segment} from byte {} on", 8 * shape.segment_word(segment))?;
    writeln!(out, "window          sixteen slots, in the order of the search")?;
    for slot in &found.window {
        writeln!(out, "  slot {:2}  byte {:7}  {}", slot.number, 8 * slot.at, said(found, slot, key))?;
    }
    Ok(())
}

/// Says what the search has found.
fn say_hit(out: &mut dyn Write, hit: Option<&Slot>) -> io::Result<Outcome> {
    match hit {
        Some(slot) => {
            writeln!(out, "found           value {}, at byte {}", slot.value, 8 * (slot.at + 1))?;
            Ok(Outcome::Done)
        }
        None => {
            writeln!(out, "absent")?;
            Ok(Outcome::No)
        }
    }
}

pub fn find(out: &mut dyn Write, dump: &Dump, key: u64) -> Ended {
    let shape = dump.shape()?;
    if key == 0 {
        return Err(Failure::refused(dump.path, dump.words, Refused { refusal: Refusal::NoKey, stores: 0 }));
    }
    let (depth, index) = (shape.depth, directory_bits(key, shape.depth));
    writeln!(out, "key             {key} ({key:#x}), folded {} ({:#x})", folded(key), folded(key))?;
    writeln!(out, "directory bits  {}, the first {depth} of the folded key from bit 4 on", bits(index, depth))?;
    writeln!(out, "bucket          {}, by bits 0 to 3", bucket(key))?;
    let found = Found::look(dump.words, &shape, key).map_err(|damage| dump.damaged(damage))?;
    say_way(out, &shape, key, &found)?;
    let outcome = say_hit(out, found.hit(key))?;
    // A get looks at no other entry. That the directory is damaged elsewhere is told all the same.
    let blocks = shape.blocks(dump.words).map_err(|damage| dump.damaged(format!("elsewhere {damage}")))?;
    let mending = Mending::of(dump.words, &shape, &blocks);
    if mending.stores > 0 {
        writeln!(out, "the index awaits mending")?;
    }
    match mending.changes_lookups() {
        false => Ok(outcome),
        true => Err(dump.damaged(format!("damaged: {mending}"))),
    }
}
