//! Damage that no call takes for such: what no run of calls leaves.
use crate::mending::Mending;
use crate::numbers::write_counted;
use crate::reading::{Block, Shape, Slot, State};
use std::collections::BTreeMap;
use std::fmt;

/// A live record that no lookup finds.
pub struct Stray {
    pub segment: usize,
    pub slot: Slot,
    /// The slot where a lookup finds the key. Where there is none, the record stands outside its key's window.
    pub first: Option<usize>,
}

/// What is found in an index whose leaders are valid.
pub struct Findings {
    /// The blocks whose segment another block to the left names, and where that begins.
    pub shared: Vec<(Block, usize)>,
    pub strays: Vec<Stray>,
    pub mending: Mending,
}

fn shared(blocks: &[Block]) -> Vec<(Block, usize)> {
    let mut named = BTreeMap::new();
    let earlier = |block: &Block| {
        let first = *named.entry(block.entry.segment).or_insert(block.start);
        (first != block.start).then_some((*block, first))
    };
    blocks.iter().filter_map(earlier).collect()
}

fn strays(words: &[u64], shape: &Shape, block: &Block) -> Vec<Stray> {
    let live = shape.slots(words, block).filter(|slot| slot.state == State::Live);
    let stray =
        |slot: Slot| Stray { segment: block.entry.segment, slot, first: shape.first_with(words, block, slot.key) };
    live.map(stray).filter(|stray| stray.first != Some(stray.slot.number)).collect()
}

impl Findings {
    pub fn of(words: &[u64], shape: &Shape, blocks: &[Block]) -> Findings {
        Findings {
            shared: shared(blocks),
            strays: blocks.iter().flat_map(|block| strays(words, shape, block)).collect(),
            mending: Mending::of(words, shape, blocks),
        }
    }

    pub fn is_damage(&self) -> bool {
        !self.shared.is_empty() || !self.strays.is_empty() || self.mending.changes_lookups()
    }
}

impl fmt::Display for Findings {
    fn fmt(&self, f: &mut fmt::Formatter<'_>) -> fmt::Result {
        let counted = [
            (self.shared.len(), "segments that two blocks name"),
            (self.strays.len(), "live records that no lookup finds"),
            (self.mending.lookups, "lookups that a mend changes"),
            (self.mending.out_of_range, "entries out of range"),
        ];
        write_counted(f, &counted)
    }
}
