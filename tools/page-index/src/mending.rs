//! What a mend would change. In an index that only the calls have written no lookup's answer changes with it.
use crate::damage::Damage;
use crate::numbers::write_counted;
use crate::reading::{directory_bits, Block, Entry, Shape};
use std::collections::BTreeSet;
use std::fmt;

/// What a mend does to an index whose leaders are valid.
#[derive(Debug, Default, PartialEq, Eq)]
pub struct Mending {
    /// The entries that it stores.
    pub stores: usize,
    /// Of them, those out of range: a lookup through such an entry is refused, and answered behind the mend.
    pub out_of_range: usize,
    /// The keys in the segments whose lookup answers otherwise behind it, a refusal being an answer too.
    pub lookups: usize,
}

impl Mending {
    pub fn of(words: &[u64], shape: &Shape, blocks: &[Block]) -> Mending {
        let stores = blocks.iter().map(|block| block.unequal).sum();
        if stores == 0 {
            return Mending::default();
        }
        Mending {
            stores,
            out_of_range: (0..shape.entries()).filter(|index| shape.entry(words, *index).is_err()).count(),
            lookups: changed_lookups(words, shape, blocks),
        }
    }

    /// Whether the answer of some lookup changes, be its key stored or not: no run of calls leaves such an index.
    pub fn changes_lookups(&self) -> bool {
        self.out_of_range > 0 || self.lookups > 0
    }
}

impl fmt::Display for Mending {
    fn fmt(&self, f: &mut fmt::Formatter<'_>) -> fmt::Result {
        let counted = [(self.lookups, "lookups that a mend changes"), (self.out_of_range, "entries out of range")];
        write_counted(f, &counted)
    }
}

/// What a lookup of the key answers where its entry is this one.
fn lookup(words: &[u64], shape: &Shape, key: u64, entry: Result<Entry, Damage>) -> Result<Option<u64>, Damage> {
    let block = shape.block_at(directory_bits(key, shape.depth), entry?);
    Ok(shape.first_with(words, &block, key).map(|slot| shape.slot(words, &block, slot).value))
}

/// The keys that stand anywhere in the segments and whose lookup answers otherwise behind a mend.
fn changed_lookups(words: &[u64], shape: &Shape, blocks: &[Block]) -> usize {
    let leaders: Vec<Entry> = blocks.iter().flat_map(|block| vec![block.entry; block.width]).collect();
    let segments = &words[shape.segment_word(0)..shape.segment_word(shape.segments)];
    // A slot is a key, then a value.
    let keys: BTreeSet<u64> = segments.iter().copied().step_by(2).filter(|key| *key != 0).collect();
    let changed = |key: &&u64| {
        let index = directory_bits(**key, shape.depth);
        let now = shape.entry(words, index);
        let behind = Ok(leaders[index]);
        now != behind && lookup(words, shape, **key, now) != lookup(words, shape, **key, behind)
    };
    keys.iter().filter(changed).count()
}
