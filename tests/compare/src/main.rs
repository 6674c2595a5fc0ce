//! Compares the compiled index with the model, call by call and word by word: random calls on arrays
//! that runs of calls leave, on such arrays with damage, and on arrays of random words. Of some calls it is tried how
//! much one number can change; some arrays are listed block by block, and the answers joined. Then the month board.
mod blocks;
mod board;
mod board_model;
mod model;
mod one_number;

use model::{Answer, Call, ABSENT, DONE};
use page_index::Refused;
use std::collections::BTreeMap;

/// A generator of 64-bit numbers (xorshift64*), so that a seed gives the same calls everywhere.
struct Random(u64);

impl Random {
    fn next(&mut self) -> u64 {
        self.0 ^= self.0 >> 12;
        self.0 ^= self.0 << 25;
        self.0 ^= self.0 >> 27;
        self.0.wrapping_mul(0x2545_f491_4f6c_dd1d)
    }

    fn below(&mut self, n: u64) -> u64 {
        self.next() % n
    }

    fn chance(&mut self, one_in: u64) -> bool {
        self.below(one_in) == 0
    }
}

/// How often each code came for each call, and calls of certain kinds.
#[derive(Default)]
struct Counts {
    calls: u64,
    cut: u64,
    damaged: u64,
    /// Calls on an array whose word 0 has the old mark.
    old: u64,
    codes: BTreeMap<(&'static str, u32), u64>,
    /// The codes of merges in runs, and on damaged or random arrays (true).
    merges: BTreeMap<(bool, u32), u64>,
    /// Merges of two blocks that name one segment, with the tests passed.
    one_segment: u64,
    one_number: one_number::Counts,
    blocks: blocks::Counts,
}

impl Counts {
    fn said(&self) -> String {
        let Counts { calls, cut, damaged, old, .. } = self;
        format!("{calls}, cut {cut}, on damaged or random arrays {damaged}, with the old mark {old}")
    }

    fn count(&mut self, call: &'static str, got: Answer) {
        self.calls += 1;
        self.cut += (got.code == model::CUT_OFF) as u64;
        *self.codes.entry((call, got.code)).or_default() += 1;
    }

    /// Prints the counts of merges; whether each of them came about.
    fn report_merges(&self) -> bool {
        let mut all = self.one_segment > 0;
        for (damaged, arrays) in [(false, "in runs"), (true, "on damaged or random arrays")] {
            let count = |code| self.merges.get(&(damaged, code)).copied().unwrap_or(0);
            let [done, cut, no_buddy, both_live] = [DONE, model::CUT_OFF, 14, 15].map(count);
            println!("merges {arrays}: done {done}, cut {cut}, no buddy {no_buddy}, both live {both_live}");
            all &= [done, cut, no_buddy, both_live].iter().all(|&count| count > 0);
        }
        println!("merges of two blocks that name one segment: {}", self.one_segment);
        all
    }
}

fn name(call: Call) -> &'static str {
    match call {
        Call::Format(..) => "format",
        Call::Get(..) => "get",
        Call::Put(..) => "put",
        Call::Remove(..) => "remove",
        Call::Mend(..) => "mend",
        Call::Merge(..) => "merge",
        Call::List => "list",
        Call::ListBlock(..) => "list block",
    }
}

fn answer(result: Result<(u32, u32, u64), Refused>) -> Answer {
    match result {
        Ok((code, stores, value)) => Answer::new(code, stores, value),
        Err(no) => Answer::new(no.refusal as u32, no.stores, 0),
    }
}

/// The call made by the compiled index.
fn made(words: &mut [u64], list: &mut [u64], call: Call) -> Answer {
    let mut next = None;
    let answered = answer(match call {
        Call::Format(d, s, n) => page_index::format(words, d, s, n).map(|stores| (DONE, stores, 0)),
        Call::Get(key) => page_index::get(words, key).map(|v| v.map_or((ABSENT, 0, 0), |v| (DONE, 0, v))),
        Call::Put(key, value, n) => page_index::put(words, key, value, n).map(|stores| (DONE, stores, 0)),
        Call::Remove(key, n) => page_index::remove(words, key, n).map(|s| s.map_or((ABSENT, 0, 0), |s| (DONE, s, 0))),
        Call::Mend(n) => page_index::mend(words, n).map(|stores| (DONE, stores, 0)),
        Call::Merge(key, n) => page_index::merge(words, key, n).map(|stores| (DONE, stores, 0)),
        Call::List => page_index::list(words, list).map(|count| (DONE, 0, count as u64)),
        Call::ListBlock(index) => page_index::list_block(words, index, list).map(|block| {
            next = block.next;
            (DONE, 0, block.records as u64)
        }),
    });
    Answer { next, ..answered }
}

/// The word that the list arrays hold where nothing was written.
const UNWRITTEN: u64 = 0x1111_2222_3333_4444;

/// Makes one call on both arrays, with list arrays of `room` words, and compares the answers and every word
/// of the arrays and of the list arrays. A listing has one outcome, so its order counts (document 02, wish 3).
fn compare(ours: &mut [u64], theirs: &mut [u64], call: Call, room: usize, counts: &mut Counts) -> Answer {
    let mut list = vec![UNWRITTEN; room];
    let mut due_list = list.clone();
    counts.old += has_old_mark(ours) as u64;
    let got = made(ours, &mut list, call);
    let due = model::perform(theirs, &mut due_list, call);
    assert_eq!(got, due, "{call:?}: the answers differ");
    assert!(ours == theirs, "{call:?}: the arrays differ after {got:?}");
    assert!(list == due_list, "{call:?}: the list arrays differ after {got:?}");
    counts.count(name(call), got);
    got
}

/// The mark that document 01 has and document 02's wish 4 replaces.
const OLD_MARK: u64 = 0x5041_4745;

fn has_old_mark(words: &[u64]) -> bool {
    words.first().is_some_and(|word| word >> 32 == OLD_MARK)
}

fn with_old_mark(word: u64) -> u64 {
    word & 0xffff_ffff | OLD_MARK << 32
}

/// The key that has this folded key.
fn unfolded(folded: u64) -> u64 {
    let key = (0..7).fold(0, |key, i| key ^ folded >> (10 * i));
    assert_eq!(model::folded(key), folded);
    key
}

/// A key: running numbers, numbers that share a window when folded, numbers in steps of 1,024, or any number,
/// now and then 0.
fn key(r: &mut Random) -> u64 {
    match r.below(8) {
        0..=2 => r.below(200),
        3..=4 => unfolded(7 + 16 * r.below(100)),
        5 => unfolded(15 + 64 * r.below(40)),
        6 => unfolded(0xfff0 + r.below(16) + 65536 * r.below(5)),
        _ if r.chance(2) => 1024 * r.below(200),
        _ => r.next(),
    }
}

/// A value: any number, often one of a few, so that a page gets the value that it has, or 0.
fn value(r: &mut Random) -> u64 {
    if r.chance(4) {
        r.below(3)
    } else {
        r.next()
    }
}

fn allowance(r: &mut Random) -> u32 {
    match r.below(4) {
        0 => r.below(90) as u32,
        1 => r.below(4) as u32,
        _ => u32::MAX,
    }
}

/// A key of a get or a remove: often one that was put.
fn known(r: &mut Random, used: &[u64]) -> u64 {
    if used.is_empty() || r.chance(3) {
        return key(r);
    }
    used[r.below(used.len() as u64) as usize]
}

fn call(r: &mut Random, words: &[u64], used: &mut Vec<u64>) -> Call {
    match r.below(44) {
        0 if r.chance(4) => Call::Format(r.below(15), r.below(20), allowance(r)),
        0..=8 => Call::Get(known(r, used)),
        9..=26 => {
            let key = key(r);
            used.push(key);
            Call::Put(key, value(r), allowance(r))
        }
        27..=32 => Call::Remove(known(r, used), allowance(r)),
        33..=37 => Call::Mend(allowance(r)),
        38..=39 => Call::List,
        40..=41 => Call::ListBlock(blocks::index(r, words)),
        _ => Call::Merge(known(r, used), allowance(r)),
    }
}

/// A call where the index is to become full: often a put of a key of this bucket.
fn filling_call(r: &mut Random, words: &[u64], bucket: u64, used: &mut Vec<u64>) -> Call {
    if r.chance(2) {
        return call(r, words, used);
    }
    used.push(unfolded(bucket + (16 << r.below(4)) * r.below(60)));
    Call::Put(used[used.len() - 1], value(r), allowance(r))
}

/// A call where the index is to become empty: mostly a merge, or a remove of the key that was put last. So blocks can
/// be merged while they still have pages.
fn emptying_call(r: &mut Random, words: &[u64], used: &mut Vec<u64>) -> Call {
    match r.below(8) {
        0..=4 => Call::Remove(used.pop().unwrap_or_else(|| key(r)), allowance(r)),
        5..=6 => Call::Merge(known(r, used), allowance(r)),
        _ => call(r, words, used),
    }
}

/// The length of the call's list array: of a listing of one block often around what it needs, else the one given.
fn room_for(r: &mut Random, words: &[u64], call: Call, other: usize) -> usize {
    match call {
        Call::ListBlock(index) => blocks::room(r, words, index, other),
        _ => other,
    }
}

/// A word 0, an entry or a record that is likely to be nearly right.
fn damage(words: &mut [u64], r: &mut Random) {
    if words.is_empty() {
        return;
    }
    let at = match r.below(4) {
        0 => 0,
        1 => r.below(64.min(words.len() as u64)) as usize,
        _ => r.below(words.len() as u64) as usize,
    };
    words[at] = match r.below(7) {
        0 => r.next(),
        1 => 0,
        2 => words[at] ^ 1 << r.below(64),
        3 => r.below(6) | r.below(5) << 32,
        4 => key(r),
        5 => with_old_mark(words[at]),
        _ => words[r.below(words.len() as u64) as usize],
    };
}

/// Gives one half of a pair of blocks the entries of the other, so that both name one segment, or exchanges them.
/// Answers whether there is such a pair.
fn confuse(words: &mut [u64], r: &mut Random) -> bool {
    let g = words[0] % 256;
    let index = r.below(1 << g) as usize;
    let depth = words[(1 << g) + index] >> 32;
    if !(1..=g).contains(&depth) {
        return false;
    }
    let width = 1usize << (g - depth);
    let first = (1 << g) + index / (2 * width) * 2 * width;
    let (left, right) = words[first..first + 2 * width].split_at_mut(width);
    match r.below(3) {
        0 => left.copy_from_slice(right),
        1 => right.copy_from_slice(left),
        _ => left.swap_with_slice(right),
    }
    true
}

/// Makes a call on both arrays, damaged or not, and counts what it was made on.
fn step(ours: &mut [u64], theirs: &mut [u64], call: Call, room: usize, damaged: bool, counts: &mut Counts) -> Answer {
    counts.damaged += damaged as u64;
    if let Call::Merge(key, _) = call {
        counts.one_segment += model::halves(ours, key).is_ok_and(|[a, b]| a.segment == b.segment) as u64;
    }
    let got = compare(ours, theirs, call, room, counts);
    match call {
        Call::Merge(..) => *counts.merges.entry((damaged, got.code)).or_default() += 1,
        Call::ListBlock(index) => blocks::count(ours, index, room, damaged, got, &mut counts.blocks),
        _ => {}
    }
    got
}

/// The call on a copy of an array that a run has left, with damage.
fn beside(words: &[u64], call: Call, room: usize, r: &mut Random, counts: &mut Counts) {
    let mut ours = words.to_vec();
    if r.chance(2) || !confuse(&mut ours, r) {
        damage(&mut ours, r);
    }
    let mut theirs = ours.clone();
    let room = room_for(r, &ours, call, room);
    step(&mut ours, &mut theirs, call, room, true, counts);
}

/// A run from a format on, of `steps` calls, with damage between them if asked. Else they now fill the index and now
/// empty it, and some are made on a damaged copy as well.
fn run(r: &mut Random, steps: u64, damaged: bool, counts: &mut Counts) {
    let d = 2 + r.below(5);
    let s = 1 + r.below((1 << d).min(24));
    let needed = (2 << d) + 128 * s;
    let size = match r.below(4) {
        0 => needed + r.below(9),
        1 if damaged => needed.saturating_sub(1 + r.below(3)),
        _ => needed,
    };
    let mut ours: Vec<u64> = (0..size).map(|_| if r.chance(2) { 0 } else { r.next() }).collect();
    let mut theirs = ours.clone();
    compare(&mut ours, &mut theirs, Call::Format(d, s, u32::MAX), 0, counts);
    let (bucket, full) = (r.below(16), r.below(200) as usize);
    let (mut used, mut emptying) = (Vec::new(), false);
    for _ in 0..steps {
        if damaged && r.chance(4) {
            damage(&mut ours, r);
            theirs.copy_from_slice(&ours);
        }
        emptying = if emptying { !used.is_empty() } else { used.len() > full };
        let room = if r.chance(3) { r.below(40) as usize } else { 2 * 64 * 24 };
        let call = match emptying {
            _ if damaged => call(r, &ours, &mut used),
            true => emptying_call(r, &ours, &mut used),
            false => filling_call(r, &ours, bucket, &mut used),
        };
        let room = room_for(r, &ours, call, room);
        if r.chance(8) {
            one_number::compare(&ours, call, value(r), &mut counts.one_number);
            blocks::compare_joined(&ours, &mut counts.blocks);
        }
        if !damaged && r.chance(4) {
            beside(&ours, call, room, r, counts);
        }
        let got = step(&mut ours, &mut theirs, call, room, damaged, counts);
        if got.code == 1 && !damaged {
            compare(&mut ours, &mut theirs, Call::Format(d, s, u32::MAX), 0, counts);
        }
    }
}

/// Random words with a likely word 0, one in ten with the old mark, or with none.
fn random_words(r: &mut Random) -> Vec<u64> {
    let d = r.below(14);
    let s = r.below(20);
    let size = r.below(3000);
    let mut words: Vec<u64> =
        (0..size).map(|_| if r.chance(3) { r.next() } else { r.below(20) | r.below(5) << 32 }).collect();
    if let Some(first) = words.first_mut() {
        if !r.chance(10) {
            let likely = model::first_word(r.below(d + 2), d, s);
            *first = if r.chance(10) { with_old_mark(likely) } else { likely };
        }
    }
    words
}

/// A few calls on an array of random words.
fn random_array(r: &mut Random, counts: &mut Counts) {
    let mut ours = random_words(r);
    let mut theirs = ours.clone();
    for _ in 0..3 {
        let call = call(r, &ours, &mut Vec::new());
        let other = r.below(4000) as usize;
        let room = room_for(r, &ours, call, other);
        one_number::compare(&ours, call, value(r), &mut counts.one_number);
        blocks::compare_joined(&ours, &mut counts.blocks);
        step(&mut ours, &mut theirs, call, room, true, counts);
    }
}

/// Listings of an array whose blocks were made by hand.
fn listings_by_hand(r: &mut Random, counts: &mut Counts) {
    let mut ours = blocks::by_hand(r);
    let mut theirs = ours.clone();
    blocks::compare_joined(&ours, &mut counts.blocks);
    for _ in 0..4 {
        let call = if r.chance(4) { Call::List } else { Call::ListBlock(blocks::index(r, &ours)) };
        let other = r.below(ours.len() as u64) as usize;
        let room = room_for(r, &ours, call, other);
        step(&mut ours, &mut theirs, call, room, true, counts);
    }
}

/// Takes the number of runs for each seed as its argument.
fn main() {
    let rounds: u64 = std::env::args().nth(1).map_or(300, |n| n.parse().expect("a number of rounds"));
    let seeds: Vec<u64> = (1..=8).map(|i| 0x9e37_79b9_7f4a_7c15u64.wrapping_mul(i)).collect();
    let mut counts = Counts::default();
    for &seed in &seeds {
        println!("seed {seed:#x}");
        let r = &mut Random(seed);
        for _ in 0..rounds {
            run(r, 600, false, &mut counts);
            run(r, 300, true, &mut counts);
        }
        for _ in 0..30 * rounds {
            random_array(r, &mut counts);
        }
        for _ in 0..5 * rounds {
            listings_by_hand(r, &mut counts);
        }
    }
    println!("calls {}", counts.said());
    for ((call, code), count) in &counts.codes {
        println!("{call} {code}: {count}");
    }
    assert!(counts.old > 0, "no word 0 had the old mark");
    let merged = counts.report_merges();
    let listed = blocks::report(&counts.blocks);
    if !one_number::report(&counts.one_number) || !merged || !listed {
        std::process::exit(1);
    }
    let mut counts = board::BoardCounts::default();
    for &seed in &seeds {
        board::compare_board(&mut Random(seed), rounds, &mut counts);
    }
    if !board::report(&counts) {
        std::process::exit(1);
    }
    println!("no difference");
}
