//! The array of words as documents 01 and 02 lay it out, read and never written. The calls of the library read it by
//! themselves; tests hold the two against each other (`agreement.rs`).
use crate::damage::Damage;
use std::fmt;

pub const MARK: u64 = 0x5041_4746;
const OLD_MARK: u64 = 0x5041_4745;
pub const SEGMENT_WORDS: usize = 128;
pub const SLOTS: usize = 64;
pub const BUCKET_SLOTS: usize = 4;
const BUCKETS: usize = 16;
const WINDOW_BUCKETS: usize = 4;

/// What word 0 says, where it is valid (document 01: sound): the largest depth D, the segments S, the present depth G.
#[derive(Clone, Copy, Debug, PartialEq, Eq)]
pub struct Shape {
    pub max_depth: u32,
    pub segments: usize,
    pub depth: u32,
}

/// An entry of the directory: the segment and its local depth.
#[derive(Clone, Copy, Debug, PartialEq, Eq)]
pub struct Entry {
    pub segment: usize,
    pub depth: u32,
}

/// A block of the directory: the indices that its leader stands for.
#[derive(Clone, Copy, Debug, PartialEq, Eq)]
pub struct Block {
    pub start: usize,
    pub width: usize,
    pub entry: Entry,
    /// The entries of the block that are not its leader's word: a mend stores these.
    pub unequal: usize,
}

/// What a slot holds.
#[derive(Clone, Copy, Debug, PartialEq, Eq)]
pub enum State {
    Empty,
    Live,
    Stale,
}

/// A slot of a segment.
#[derive(Clone, Copy, Debug, PartialEq, Eq)]
pub struct Slot {
    pub number: usize,
    /// Where its key word stands in the array; the value word stands behind it.
    pub at: usize,
    pub key: u64,
    pub value: u64,
    pub state: State,
}

/// The folded key, from which bucket and directory bits are taken (document 02, wish 4).
pub fn folded(key: u64) -> u64 {
    key ^ (key / 1024)
}

/// The first bucket of the key's window.
pub fn bucket(key: u64) -> usize {
    folded(key) as usize % BUCKETS
}

/// The number that the key's first `count` directory bits make, bit 4 of the folded key first and heaviest.
pub fn directory_bits(key: u64, count: u32) -> usize {
    (0..count).fold(0, |bits, number| 2 * bits + (folded(key) >> (4 + number)) as usize % 2)
}

/// The number of words that are not 0.
pub fn not_zero(words: &[u64]) -> usize {
    words.iter().filter(|word| **word != 0).count()
}

impl Shape {
    /// Reads word 0, or says why it is not valid.
    pub fn read(words: &[u64]) -> Result<Shape, Damage> {
        let word = *words.first().ok_or(Damage::NoWords)?;
        match word >> 32 {
            MARK => (),
            OLD_MARK => return Err(Damage::OldMark),
            _ if word == 0 => return Err(Damage::Word0 { others: not_zero(words) }),
            _ => return Err(Damage::NoMark { word }),
        }
        let byte = |shift: u32| (word >> shift) as u32 & 0xff;
        let shape = Shape { max_depth: byte(8), segments: (word >> 16) as usize & 0xffff, depth: byte(0) };
        let Shape { max_depth, segments, depth } = shape;
        if !(2..=12).contains(&max_depth) || depth > max_depth || !(1..=1 << max_depth).contains(&segments) {
            return Err(Damage::BadShape { shape });
        }
        let (needs, has) = (shape.words(), words.len());
        if has < needs {
            return Err(Damage::TooShort { needs, has });
        }
        Ok(shape)
    }

    /// The word 0 that says this.
    pub fn word(&self) -> u64 {
        MARK << 32 | (self.segments as u64) << 16 | u64::from(self.max_depth) << 8 | u64::from(self.depth)
    }

    /// The words that the index takes.
    pub fn words(&self) -> usize {
        self.segment_word(self.segments)
    }

    /// The number of entries of the present directory.
    pub fn entries(&self) -> usize {
        1 << self.depth
    }

    /// The word of an entry of the present directory.
    pub fn entry_word(&self, index: usize) -> usize {
        self.entries() + index
    }

    /// The first word of a segment.
    pub fn segment_word(&self, segment: usize) -> usize {
        (2 << self.max_depth) + SEGMENT_WORDS * segment
    }

    /// The entry at an index of the directory, or that it is out of range.
    pub fn entry(&self, words: &[u64], index: usize) -> Result<Entry, Damage> {
        let at = self.entry_word(index);
        let entry = Entry::from(words[at]);
        if entry.depth > self.depth || entry.segment >= self.segments {
            return Err(Damage::EntryOutOfRange { index, at, entry });
        }
        Ok(entry)
    }

    /// The blocks from the left of the directory (document 01: the walk), or the first leader that is not valid.
    pub fn blocks(&self, words: &[u64]) -> Result<Vec<Block>, Damage> {
        let mut blocks = Vec::new();
        let mut start = 0;
        while start < self.entries() {
            let entry = self.entry(words, start)?;
            let width = 1 << (self.depth - entry.depth);
            let at = self.entry_word(start);
            if start % width != 0 {
                return Err(Damage::LeaderNotAligned { index: start, at, entry });
            }
            let unequal = words[at..at + width].iter().filter(|word| **word != words[at]).count();
            blocks.push(Block { start, width, entry, unequal });
            start += width;
        }
        Ok(blocks)
    }

    /// Whether every leader is valid and every other entry in range, or the first that is not, leaders before others.
    pub fn check_directory(&self, words: &[u64]) -> Result<(), Damage> {
        self.blocks(words)?;
        (0..self.entries()).try_for_each(|index| self.entry(words, index).map(drop))
    }

    /// For each segment, whether an entry names it.
    pub fn named(&self, words: &[u64]) -> Vec<bool> {
        let mut named = vec![false; self.segments];
        for index in 0..self.entries() {
            if let Some(segment) = named.get_mut(Entry::from(words[self.entry_word(index)]).segment) {
                *segment = true;
            }
        }
        named
    }

    /// The block at an index whose entry this is: also where it is not the block's leader's.
    pub fn block_at(&self, index: usize, entry: Entry) -> Block {
        let width = 1 << (self.depth - entry.depth);
        Block { start: index - index % width, width, entry, unequal: 0 }
    }

    /// The number that the block's directory bits make.
    pub fn block_bits(&self, block: &Block) -> usize {
        block.start >> (self.depth - block.entry.depth)
    }

    /// A slot of the block's segment.
    pub fn slot(&self, words: &[u64], block: &Block, number: usize) -> Slot {
        let at = self.segment_word(block.entry.segment) + 2 * number;
        let (key, value) = (words[at], words[at + 1]);
        let state = match key {
            0 => State::Empty,
            _ if directory_bits(key, block.entry.depth) == self.block_bits(block) => State::Live,
            _ => State::Stale,
        };
        Slot { number, at, key, value, state }
    }

    /// The slots of the block's segment.
    pub fn slots<'a>(&'a self, words: &'a [u64], block: &'a Block) -> impl Iterator<Item = Slot> + 'a {
        (0..SLOTS).map(|number| self.slot(words, block, number))
    }

    /// The first slot of the key's window, in the block's segment, that has the key.
    pub fn first_with(&self, words: &[u64], block: &Block, key: u64) -> Option<usize> {
        Shape::window(key).find(|number| self.slot(words, block, *number).key == key)
    }

    /// The numbers of the sixteen slots of the key's window, in the order of the search.
    pub fn window(key: u64) -> impl Iterator<Item = usize> {
        (0..WINDOW_BUCKETS * BUCKET_SLOTS).map(move |i| (BUCKET_SLOTS * bucket(key) + i) % SLOTS)
    }
}

impl From<u64> for Entry {
    fn from(word: u64) -> Entry {
        Entry { segment: word as u32 as usize, depth: (word >> 32) as u32 }
    }
}

impl fmt::Display for Entry {
    fn fmt(&self, f: &mut fmt::Formatter<'_>) -> fmt::Result {
        write!(f, "segment {}, local depth {}", self.segment, self.depth)
    }
}

impl fmt::Display for Shape {
    fn fmt(&self, f: &mut fmt::Formatter<'_>) -> fmt::Result {
        write!(f, "D = {}, S = {}, G = {}", self.max_depth, self.segments, self.depth)
    }
}
