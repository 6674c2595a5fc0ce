//! The eight calls written from documents 01 and 02 alone. A call is first a list of stores and a reply, both
//! computed on a copy of the array; then as many of the stores as are allowed are made.
use std::ops::Range;

pub const DONE: u32 = 0;
pub const CUT_OFF: u32 = 7;
pub const ABSENT: u32 = 255;

const MARK: u64 = 0x5041_4746;

/// One call with its arguments.
#[derive(Clone, Copy, Debug)]
pub enum Call {
    Format(u64, u64, u32),
    Get(u64),
    Put(u64, u64, u32),
    Remove(u64, u32),
    Mend(u32),
    Merge(u64, u32),
    List,
    ListBlock(u64),
}

/// What a call answers.
#[derive(Clone, Copy, Debug, PartialEq, Eq)]
pub struct Answer {
    pub code: u32,
    pub stores: u32,
    pub value: u64,
    /// Where one block was listed: the next block's index, or none if it was the last.
    pub next: Option<u64>,
}

impl Answer {
    pub fn new(code: u32, stores: u32, value: u64) -> Answer {
        Answer { code, stores, value, next: None }
    }

    fn plain(code: u32) -> Answer {
        Answer::new(code, 0, 0)
    }
}

/// G, D and S.
#[derive(Clone, Copy)]
struct Shape {
    g: u32,
    d: u32,
    s: u64,
}

/// A directory entry taken apart.
#[derive(Clone, Copy)]
struct Entry {
    segment: u64,
    depth: u64,
}

/// A copy of the array with the stores that were made in it.
struct Draft {
    words: Vec<u64>,
    due: Vec<(usize, u64)>,
}

impl Draft {
    fn store(&mut self, at: usize, word: u64) {
        self.due.push((at, word));
        self.words[at] = word;
    }
}

fn bytes_of(word: u64, first: u32, count: u32) -> u64 {
    word >> first & ((1 << count) - 1)
}

fn shape(words: &[u64]) -> Option<Shape> {
    let word = *words.first()?;
    let (g, d, s) = (bytes_of(word, 0, 8) as u32, bytes_of(word, 8, 8) as u32, bytes_of(word, 16, 16));
    let sound = word >> 32 == MARK && (2..=12).contains(&d) && g <= d && s >= 1 && s <= 1 << d;
    (sound && words.len() as u64 >= (2 << d) + 128 * s).then_some(Shape { g, d, s })
}

/// Word 0 with these G, D and S.
pub fn first_word(g: u64, d: u64, s: u64) -> u64 {
    g | d << 8 | s << 16 | MARK << 32
}

/// The folded key, from which bucket and route are taken (document 02, wish 4).
pub fn folded(key: u64) -> u64 {
    key ^ key / 1024
}

/// The first `count` route bits of a key, in order.
fn route(key: u64, count: u64) -> Vec<bool> {
    let folded = folded(key);
    (0..count).map(|i| folded >> (4 + i) & 1 == 1).collect()
}

/// The bits of an index of `width` bits, the heaviest first.
fn bits_of(index: usize, width: u32) -> Vec<bool> {
    (0..width).rev().map(|i| index >> i & 1 == 1).collect()
}

fn number(bits: &[bool]) -> usize {
    bits.iter().fold(0, |n, &bit| 2 * n + bit as usize)
}

fn entry(words: &[u64], shape: Shape, index: usize) -> Entry {
    let word = words[(1 << shape.g) + index];
    Entry { segment: word & 0xffff_ffff, depth: word >> 32 }
}

/// The walk: each block as its range of indices; or refusal 3; or 4 where an entry differs from its leader.
fn walk(words: &[u64], shape: Shape) -> Result<Vec<Range<usize>>, u32> {
    let size = 1usize << shape.g;
    let (mut blocks, mut at) = (Vec::new(), 0);
    while at < size {
        let e = entry(words, shape, at);
        if e.depth > shape.g as u64 || e.segment >= shape.s {
            return Err(3);
        }
        let width = size >> e.depth;
        if at % width != 0 {
            return Err(3);
        }
        blocks.push(at..at + width);
        at += width;
    }
    let tidy = blocks.iter().all(|b| b.clone().all(|i| words[size + i] == words[size + b.start]));
    if tidy {
        Ok(blocks)
    } else {
        Err(4)
    }
}

fn slot_address(shape: Shape, segment: u64, slot: usize) -> usize {
    (2usize << shape.d) + 128 * segment as usize + 2 * slot
}

fn window(key: u64) -> impl Iterator<Item = usize> {
    let first = 4 * (folded(key) % 16) as usize;
    (0..16).map(move |i| (first + i) % 64)
}

/// The address of the key word of the first slot of the window that holds the key.
fn hit(words: &[u64], shape: Shape, segment: u64, key: u64) -> Option<usize> {
    window(key).map(|slot| slot_address(shape, segment, slot)).find(|&at| words[at] == key)
}

fn is_live(key: u64, block: &[bool]) -> bool {
    key != 0 && route(key, block.len() as u64) == block
}

/// The address of the key word of the slot that a new key takes: the first empty slot of its window, and only
/// where none is empty the first stale one.
fn slot_for_new(words: &[u64], shape: Shape, e: Entry, key: u64) -> Option<usize> {
    let block = route(key, e.depth);
    let slots = || window(key).map(|slot| slot_address(shape, e.segment, slot));
    let empty = slots().find(|&at| words[at] == 0);
    empty.or_else(|| slots().find(|&at| words[at] != 0 && !is_live(words[at], &block)))
}

/// The tests of put, remove and merge.
fn checked(words: &[u64], key: u64) -> Result<Shape, u32> {
    let shape = shape(words).ok_or(1u32)?;
    if key == 0 {
        return Err(2);
    }
    walk(words, shape).map(|_| shape)
}

fn format(draft: &mut Draft, d: u64, s: u64) -> u32 {
    if !(2..=12).contains(&d) || s < 1 || s > 1 << d {
        return 8;
    }
    if (draft.words.len() as u64) < (2 << d) + 128 * s {
        return 9;
    }
    draft.store(0, 0);
    draft.store(1, 0);
    for slot in 0..64 {
        draft.store((2 << d) + 2 * slot, 0);
    }
    draft.store(0, first_word(0, d, s));
    DONE
}

/// The value of the key, if it has one, or the refusal.
pub fn get(words: &[u64], key: u64) -> Result<Option<u64>, u32> {
    let shape = shape(words).ok_or(1u32)?;
    if key == 0 {
        return Err(2);
    }
    let e = entry(words, shape, number(&route(key, shape.g as u64)));
    if e.depth > shape.g as u64 || e.segment >= shape.s {
        return Err(3);
    }
    Ok(hit(words, shape, e.segment, key).map(|at| words[at + 1]))
}

fn put(draft: &mut Draft, key: u64, value: u64) -> u32 {
    loop {
        let shape = match checked(&draft.words, key) {
            Ok(shape) => shape,
            Err(code) => return code,
        };
        let e = entry(&draft.words, shape, number(&route(key, shape.g as u64)));
        if let Some(at) = hit(&draft.words, shape, e.segment, key) {
            draft.store(at + 1, value);
            return DONE;
        }
        if let Some(at) = slot_for_new(&draft.words, shape, e, key) {
            draft.store(at + 1, value);
            draft.store(at, key);
            return DONE;
        }
        if e.depth == shape.d as u64 {
            return 5;
        }
        let named: Vec<u64> = (0..1 << shape.g).map(|i| entry(&draft.words, shape, i).segment).collect();
        match (0..shape.s).find(|n| !named.contains(n)) {
            Some(fresh) => split(draft, key, e, fresh),
            None => return 6,
        }
    }
}

fn split(draft: &mut Draft, key: u64, e: Entry, fresh: u64) {
    let mut shape = shape(&draft.words).expect("the tests have passed");
    if e.depth == shape.g as u64 {
        let size = 1usize << shape.g;
        for i in 0..2 * size {
            draft.store(2 * size + i, draft.words[size + i / 2]);
        }
        draft.store(0, draft.words[0] + 1);
        shape.g += 1;
    }
    let block = route(key, e.depth);
    for slot in 0..64 {
        let (old, new) = (slot_address(shape, e.segment, slot), slot_address(shape, fresh, slot));
        let moved = draft.words[old];
        if is_live(moved, &block) && route(moved, e.depth + 1)[e.depth as usize] {
            draft.store(new + 1, draft.words[old + 1]);
            draft.store(new, moved);
        } else {
            draft.store(new, 0);
        }
    }
    let size = 1usize << shape.g;
    for i in (0..size).rev() {
        let bits = bits_of(i, shape.g);
        if bits[..e.depth as usize] == block[..] {
            let half = if bits[e.depth as usize] { fresh } else { e.segment };
            draft.store(size + i, half | (e.depth + 1) << 32);
        }
    }
}

fn remove(draft: &mut Draft, key: u64) -> u32 {
    let shape = match checked(&draft.words, key) {
        Ok(shape) => shape,
        Err(code) => return code,
    };
    let e = entry(&draft.words, shape, number(&route(key, shape.g as u64)));
    match hit(&draft.words, shape, e.segment, key) {
        Some(at) => {
            draft.store(at, 0);
            DONE
        }
        None => ABSENT,
    }
}

fn mend(draft: &mut Draft) -> u32 {
    let Some(shape) = shape(&draft.words) else { return 1 };
    let size = 1usize << shape.g;
    if walk(&draft.words, shape) == Err(3) {
        return 3;
    }
    let mut leader = 0;
    for i in 0..size {
        let width = size >> entry(&draft.words, shape, leader).depth;
        if i == leader + width {
            leader = i;
        } else if draft.words[size + i] != draft.words[size + leader] {
            draft.store(size + i, draft.words[size + leader]);
        }
    }
    DONE
}

/// The indices of the directory that have these first bits, from the left.
fn indices(shape: Shape, block: &[bool]) -> impl Iterator<Item = usize> + '_ {
    (0..1usize << shape.g).filter(move |&i| bits_of(i, shape.g).starts_with(block))
}

/// One of the two blocks that a merge joins: its first bits, as many as its depth, and its segment.
pub struct Half {
    bits: Vec<bool>,
    pub segment: u64,
}

/// The left and the right block of a merge on this key, or its refusal (document 02, wish 6).
pub fn halves(words: &[u64], key: u64) -> Result<[Half; 2], u32> {
    let shape = checked(words, key)?;
    let own = entry(words, shape, number(&route(key, shape.g as u64)));
    let bits = route(key, own.depth);
    let Some((&right, joined)) = bits.split_last() else { return Err(14) };
    let other = [joined, &[!right]].concat();
    let first = indices(shape, &other).next().expect("the buddy is no deeper than the directory");
    let buddy = entry(words, shape, first);
    if buddy.depth != own.depth {
        return Err(14);
    }
    let mut pair = [Half { bits, segment: own.segment }, Half { bits: other, segment: buddy.segment }];
    if right {
        pair.reverse();
    }
    let live = |half: &Half, slot: usize| is_live(words[slot_address(shape, half.segment, slot)], &half.bits);
    let both = (0..64).any(|slot| pair.iter().all(|half| live(half, slot)));
    if both {
        Err(15)
    } else {
        Ok(pair)
    }
}

fn merge(draft: &mut Draft, key: u64) -> u32 {
    let [a, b] = match halves(&draft.words, key) {
        Ok(pair) => pair,
        Err(code) => return code,
    };
    let shape = shape(&draft.words).expect("the tests have passed");
    for slot in 0..64 {
        let [to, from] = [&a, &b].map(|half| slot_address(shape, half.segment, slot));
        let [old, moved] = [draft.words[to], draft.words[from]];
        if is_live(moved, &b.bits) {
            draft.store(to + 1, draft.words[from + 1]);
            draft.store(to, moved);
        } else if old != 0 && !is_live(old, &a.bits) {
            draft.store(to, 0);
        }
    }
    let (_, joined) = a.bits.split_last().expect("the depth is not 0");
    for i in indices(shape, joined) {
        draft.store((1 << shape.g) + i, a.segment | (joined.len() as u64) << 32);
    }
    DONE
}

/// The live records of one block, key then value, by rising slot number.
fn block_records(words: &[u64], shape: Shape, block: &Range<usize>) -> Vec<u64> {
    let e = entry(words, shape, block.start);
    let bits = bits_of(block.start, shape.g)[..e.depth as usize].to_vec();
    let slots = (0..64).map(|slot| slot_address(shape, e.segment, slot));
    slots.filter(|&at| is_live(words[at], &bits)).flat_map(|at| [words[at], words[at + 1]]).collect()
}

/// The records of the walk's segments: block by block from the left of the directory (document 02, wish 3).
fn records(words: &[u64]) -> Result<Vec<u64>, u32> {
    let shape = shape(words).ok_or(1u32)?;
    Ok(walk(words, shape)?.iter().flat_map(|block| block_records(words, shape, block)).collect())
}

/// The indices at which the walk has a leader, or its refusal.
pub fn leaders(words: &[u64]) -> Result<Vec<usize>, u32> {
    let shape = shape(words).ok_or(1u32)?;
    Ok(walk(words, shape)?.iter().map(|block| block.start).collect())
}

/// The records of the one block led at this index, and the index of the block that the walk has next, if it goes on; or
/// the refusal (document 02, wish 7).
pub fn block_led(words: &[u64], index: u64) -> Result<(Vec<u64>, Option<u64>), u32> {
    let shape = shape(words).ok_or(1u32)?;
    let blocks = walk(words, shape)?;
    let mut from = blocks.iter().skip_while(|block| block.start as u64 != index);
    let led = from.next().ok_or(16u32)?;
    Ok((block_records(words, shape, led), from.next().map(|block| block.start as u64)))
}

/// What a listing of these records answers. Where it is done it writes them to `list`, and words behind them stay.
fn listed(list: &mut [u64], found: Vec<u64>, next: Option<u64>) -> Answer {
    if list.len() < found.len() {
        return Answer::plain(10);
    }
    list[..found.len()].copy_from_slice(&found);
    Answer { next, ..Answer::new(DONE, 0, found.len() as u64 / 2) }
}

/// Makes a call on the array; a done listing writes its records to `list`.
pub fn perform(words: &mut [u64], list: &mut [u64], call: Call) -> Answer {
    let mut draft = Draft { words: words.to_vec(), due: Vec::new() };
    let (code, allowance) = match call {
        Call::Get(key) => {
            return match get(words, key) {
                Ok(Some(value)) => Answer::new(DONE, 0, value),
                Ok(None) => Answer::plain(ABSENT),
                Err(code) => Answer::plain(code),
            }
        }
        Call::List => return records(words).map_or_else(Answer::plain, |found| listed(list, found, None)),
        Call::ListBlock(index) => {
            return block_led(words, index).map_or_else(Answer::plain, |(found, next)| listed(list, found, next))
        }
        Call::Format(d, s, n) => (format(&mut draft, d, s), n),
        Call::Put(key, value, n) => (put(&mut draft, key, value), n),
        Call::Remove(key, n) => (remove(&mut draft, key), n),
        Call::Mend(n) => (mend(&mut draft), n),
        Call::Merge(key, n) => (merge(&mut draft, key), n),
    };
    let made = draft.due.len().min(allowance as usize);
    for &(at, word) in &draft.due[..made] {
        words[at] = word;
    }
    let code = if made < draft.due.len() { CUT_OFF } else { code };
    Answer::new(code, made as u32, 0)
}
