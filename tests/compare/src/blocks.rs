//! The listing of one block (document 02, wish 7): the indices and the list arrays that its calls get, what was
//! answered, and the answers joined.
use crate::model::{self, Answer, DONE};
use crate::{unfolded, Random};
use page_index::{Block, BLOCK_WORDS};
use std::collections::BTreeMap;
use std::ops::Range;

/// The codes that must come in runs, and on damaged or random arrays.
const WANTED: [&[u32]; 2] = [&[0, 4, 10, 16], &[0, 1, 3, 4, 10, 16]];

/// How often each answer came.
#[derive(Default)]
pub struct Counts {
    /// By code, in runs, and on damaged or random arrays (true).
    codes: BTreeMap<(bool, u32), u64>,
    /// Done ones behind which the walk goes on, and those of a last block.
    next: u64,
    last: u64,
    /// Done with just the words needed, and refused with one word less.
    exact: u64,
    one_short: u64,
    /// Done ones of 64 records, which need all of 128 words.
    full: u64,
    /// Refused with 16 at an index within a block, and at the directory's end or behind it.
    within: u64,
    behind: u64,
    /// Listings joined, with how many blocks, and those refused.
    joined: u64,
    blocks: u64,
    refused: u64,
}

/// A key whose directory bits are those of this index of a directory of depth g.
fn key_at(r: &mut Random, index: u64, g: u64) -> u64 {
    let bits = (0..g).fold(0, |bits, i| bits | (index >> (g - 1 - i) & 1) << i);
    unfolded((1 + r.below(1 << 20)) << 16 | bits << 4 | r.below(16))
}

/// Gives the block its entries, and its segment live records alone, or live ones, stale ones and empty slots by chance.
fn make_block(r: &mut Random, words: &mut [u64], block: Range<u64>, segment: u64, depth: u64) {
    let [g, d] = [words[0] % 256, words[0] / 256 % 256];
    for i in block.clone() {
        words[((1 << g) + i) as usize] = segment | depth << 32;
    }
    let all_live = r.chance(3);
    for slot in 0..64 {
        let within = block.start + r.below(block.end - block.start);
        let index = if all_live || r.chance(2) { within } else { r.below(1 << g) };
        let at = ((2 << d) + 128 * segment + 2 * slot) as usize;
        words[at] = if all_live || !r.chance(4) { key_at(r, index, g) } else { 0 };
        words[at + 1] = r.next();
    }
}

/// An array whose directory is tidy, of random blocks, each with a segment of its own. In one block of three every slot
/// is live, so that its records need 128 words.
pub fn by_hand(r: &mut Random) -> Vec<u64> {
    let d = 2 + r.below(4);
    let g = r.below(d + 1);
    let mut words = vec![0; (2 << d) + (128 << d)];
    words[0] = model::first_word(g, d, 1 << d);
    let (mut start, mut segment) = (0, 0);
    while start < 1 << g {
        // The widest block that can begin here, or a narrower one.
        let shallowest = (0..=g).find(|depth| start % (1 << (g - depth)) == 0).expect("a block of one entry can");
        let depth = shallowest + r.below(g - shallowest + 1);
        let end = start + (1 << (g - depth));
        make_block(r, &mut words, start..end, segment, depth);
        (start, segment) = (end, segment + 1);
    }
    words
}

/// 2^G, by a word 0 that may be damaged.
fn directory_size(words: &[u64]) -> u64 {
    1 << words.first().map_or(0, |word| word % 256).min(12)
}

/// A directory index: mostly that of a leader, some within a block, the directory's end, numbers behind it, and some
/// that are a leader's where bits are lost.
pub fn index(r: &mut Random, words: &[u64]) -> u64 {
    let leaders = model::leaders(words).unwrap_or_else(|_| vec![0]);
    let leader = leaders[r.below(leaders.len() as u64) as usize] as u64;
    match r.below(8) {
        0..=3 => leader,
        4 => r.below(directory_size(words)),
        5 => directory_size(words) + r.below(2) * r.below(9),
        6 => leader | 1 << (12 + r.below(52)),
        _ => u64::MAX - r.below(2),
    }
}

/// The words of the block's records, or 0 where the call is refused.
fn needed(words: &[u64], index: u64) -> usize {
    model::block_led(words, index).map_or(0, |(found, _)| found.len())
}

/// The length of a list array for the block at this index: around what it needs, around 128, or the one given.
pub fn room(r: &mut Random, words: &[u64], index: u64, other: usize) -> usize {
    match r.below(6) {
        0..=1 => needed(words, index),
        2 => needed(words, index).saturating_sub(1),
        3 => BLOCK_WORDS - 1 + r.below(3) as usize,
        _ => other,
    }
}

/// Counts what was answered at this index with a list array of `room` words.
pub fn count(words: &[u64], index: u64, room: usize, damaged: bool, got: Answer, counts: &mut Counts) {
    *counts.codes.entry((damaged, got.code)).or_default() += 1;
    let needed = needed(words, index);
    match got.code {
        DONE => {
            *(if got.next.is_some() { &mut counts.next } else { &mut counts.last }) += 1;
            counts.exact += (room == needed) as u64;
            counts.full += (needed == BLOCK_WORDS) as u64;
        }
        10 => counts.one_short += (room + 1 == needed) as u64,
        16 => *(if index < directory_size(words) { &mut counts.within } else { &mut counts.behind }) += 1,
        _ => {}
    }
}

/// The compiled index's answers from index 0 on, each with 128 words: joined they must be its full listing, and as many
/// as the walk has blocks. Where the walk is refused, that refusal must come, once.
pub fn compare_joined(words: &[u64], counts: &mut Counts) {
    let answers: Vec<_> = page_index::blocks(words).collect();
    match model::leaders(words) {
        Ok(leaders) => {
            let parts: Vec<Block> = answers.into_iter().map(|block| block.expect("the walk is not refused")).collect();
            assert_eq!(parts.len(), leaders.len(), "the number of blocks differs");
            let mut whole = vec![0; BLOCK_WORDS * leaders.len()];
            let records = page_index::list(words, &mut whole).expect("the walk is not refused");
            let joined: Vec<u64> = parts.iter().flat_map(|block| block.words().to_vec()).collect();
            assert!(joined == whole[..2 * records], "the blocks joined are not the full listing");
            counts.joined += 1;
            counts.blocks += leaders.len() as u64;
        }
        Err(code) => {
            let codes: Vec<u32> =
                answers.into_iter().map(|block| block.map_or_else(|no| no.refusal as u32, |_| DONE)).collect();
            assert_eq!(codes, [code], "the blocks joined are not refused as the walk is");
            counts.refused += 1;
        }
    }
}

/// Prints the counts; whether each of them came about.
pub fn report(counts: &Counts) -> bool {
    let Counts { next, last, exact, one_short, full, within, behind, joined, blocks, refused, .. } = counts;
    for (damaged, arrays) in [(false, "in runs"), (true, "on damaged or random arrays")] {
        let code = |code| counts.codes.get(&(damaged, code)).copied().unwrap_or(0);
        let [done, short, no_leader] = [DONE, 10, 16].map(code);
        println!("blocks listed {arrays}: done {done}, short list {short}, no leader {no_leader}");
    }
    println!("of them: another block follows {next}, the last {last}, of 64 records {full}");
    println!("list arrays: of just the words needed {exact}, of one word less {one_short}");
    println!("no leader: within a block {within}, at the directory's end or behind it {behind}");
    println!("listings joined: {joined}, of {blocks} blocks; refused {refused}");
    let came =
        |(wanted, damaged): (&[u32], bool)| wanted.iter().all(|&code| counts.codes.contains_key(&(damaged, code)));
    [*next, *last, *exact, *one_short, *full, *within, *behind, *joined, *refused].iter().all(|&count| count > 0)
        && blocks > joined
        && WANTED.into_iter().zip([false, true]).all(came)
}
