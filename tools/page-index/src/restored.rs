//! A file whose word 0 is 0: the index that it would be if word 0 were put right.
use crate::numbers::counted;
use crate::reading::{Block, Shape, State, SEGMENT_WORDS};
use std::fmt;

/// What a file would be with the word 0 of this shape: how many records lookups would find.
#[derive(Debug, PartialEq, Eq)]
pub struct Restored {
    pub shape: Shape,
    pub live: usize,
}

/// The shapes of depth 0 that so many words have room for, each with as many segments as go into them; those alone that
/// take just so many words, where there are any.
fn shapes(len: usize) -> Vec<Shape> {
    let segments =
        |max_depth: u32| len.checked_sub(2 << max_depth).map(|room| (room / SEGMENT_WORDS).min(1 << max_depth));
    let shape =
        |max_depth| Some(Shape { max_depth, segments: segments(max_depth).filter(|some| *some > 0)?, depth: 0 });
    let all: Vec<Shape> = (2..=12).filter_map(shape).collect();
    let exact: Vec<Shape> = all.iter().copied().filter(|shape| shape.words() == len).collect();
    if exact.is_empty() {
        all
    } else {
        exact
    }
}

/// Whether a directory of this depth was ever stored, as far as that can be seen.
fn has_directory(words: &[u64], shape: &Shape) -> bool {
    shape.depth == 0 || words[shape.entry_word(0)..shape.entry_word(shape.entries())].iter().any(|word| *word != 0)
}

/// The records that lookups find, by the leaders of the blocks.
fn found(words: &[u64], shape: &Shape, blocks: &[Block]) -> usize {
    let of = |block: &Block| {
        let found = |slot: usize, key| shape.first_with(words, block, key) == Some(slot);
        shape.slots(words, block).filter(|slot| slot.state == State::Live && found(slot.number, slot.key)).count()
    };
    blocks.iter().map(of).sum()
}

/// Of all words 0 that a file of this length can have, the one that was most likely there, or none where no record would be
/// found with any. D is that with which the most records are found at some depth. G is the deepest at which any is: in a file
/// that was formatted once no deeper directory was ever stored whole, while an older one may lead to records that were
/// removed since, where a split has left them.
pub fn restored(words: &[u64]) -> Option<Restored> {
    let of_every_depth = |shape: Shape| (0..=shape.max_depth).map(move |depth| Shape { depth, ..shape });
    let all: Vec<Restored> = shapes(words.len())
        .into_iter()
        .flat_map(of_every_depth)
        .filter(|shape| has_directory(words, shape))
        .filter_map(|shape| Some(Restored { shape, live: found(words, &shape, &shape.blocks(words).ok()?) }))
        .filter(|restored| restored.live > 0)
        .collect();
    let max_depth = all.iter().max_by_key(|restored| restored.live)?.shape.max_depth;
    all.into_iter().filter(|restored| restored.shape.max_depth == max_depth).max_by_key(|restored| restored.shape.depth)
}

impl fmt::Display for Restored {
    fn fmt(&self, f: &mut fmt::Formatter<'_>) -> fmt::Result {
        let (word, shape, live) = (self.shape.word(), self.shape, counted(self.live, "record"));
        write!(f, "with {word:#018x} there ({shape}) {live} would be live")
    }
}

/// What is said of a file whose word 0 is 0 and others are not.
pub fn said(words: &[u64]) -> String {
    match restored(words) {
        Some(restored) => restored.to_string(),
        None => "no record would be live with any word 0".to_string(),
    }
}
