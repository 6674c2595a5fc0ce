//! A listing block by block, over one untouched index.
use crate::{list_block, Refused};
use std::iter::FusedIterator;

/// The words that the records of one block need at most: key and value of 64 slots.
pub const BLOCK_WORDS: usize = 128;

/// The records of one block, by rising slot number, in 128 words of its own.
#[derive(Clone, Debug, PartialEq, Eq)]
pub struct Block {
    words: [u64; BLOCK_WORDS],
    records: usize,
}

impl Block {
    /// The records as [`list`](crate::list) writes them, each as key, then value.
    pub fn words(&self) -> &[u64] {
        &self.words[..2 * self.records]
    }

    /// The records, each as key and value.
    pub fn records(&self) -> impl Iterator<Item = (u64, u64)> + '_ {
        self.words().chunks_exact(2).map(|record| (record[0], record[1]))
    }
}

/// Goes through an index block by block: see [`blocks`].
#[derive(Clone, Debug)]
pub struct Blocks<'a> {
    words: &'a [u64],
    next: Option<u64>,
}

/// Lists the index block by block, from the left of the directory. Joined, the blocks are the records of
/// [`list`](crate::list), in its order: the index is borrowed, so that it stays as it is to the last block.
/// Nothing is allocated: one block at a time takes 128 words. Where `list` refuses a damaged index, or one that
/// has to be mended, that refusal comes in the place of the first block, and nothing behind it.
///
/// ```
/// let mut words = [0u64; 264];
/// page_index::format(&mut words, 2, 2, 67)?;
/// page_index::put(&mut words, 7, 70, 2)?;
/// for block in page_index::blocks(&words) {
///     for (key, value) in block?.records() {
///         assert_eq!((key, value), (7, 70));
///     }
/// }
/// # Ok::<(), page_index::Refused>(())
/// ```
pub fn blocks(words: &[u64]) -> Blocks<'_> {
    Blocks { words, next: Some(0) }
}

impl Iterator for Blocks<'_> {
    type Item = Result<Block, Refused>;

    fn next(&mut self) -> Option<Self::Item> {
        let index = self.next.take()?;
        let mut words = [0; BLOCK_WORDS];
        Some(list_block(self.words, index, &mut words).map(|listed| {
            self.next = listed.next;
            Block { words, records: listed.records }
        }))
    }
}

impl FusedIterator for Blocks<'_> {}
