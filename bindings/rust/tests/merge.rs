//! Merges (document 02, wish 6), whole and cut off at every store. Figures are worked out from documents 01 and 02.
use page_index::{format, get, mend, merge, put, remove, Refusal, Refused};

const ALL: u32 = u32::MAX;

/// A store: the address and the word.
type Store = (usize, u64);

/// The key of bucket 7 whose route bits are those of `k`, the lowest first. Below 1,024 a key is its own folded key.
fn page(k: u64) -> u64 {
    7 + 16 * k
}

fn entry(segment: u64, depth: u64) -> u64 {
    segment | depth << 32
}

fn refused(refusal: Refusal) -> Result<u32, Refused> {
    Err(Refused { refusal, stores: 0 })
}

/// Puts the page, with ten times its key as value; answers the number of stores.
fn enter(words: &mut [u64], k: u64) -> u32 {
    put(words, page(k), 10 * page(k), ALL).unwrap()
}

fn take(words: &mut [u64], k: u64) {
    assert_eq!(remove(words, page(k), ALL), Ok(Some(1)));
}

/// Asks for the pages 0 to 40: those of `present` are found, the others absent.
fn check_pages(words: &[u64], present: &[u64]) {
    for k in 0..=40 {
        let value = present.contains(&k).then_some(10 * page(k));
        assert_eq!(get(words, page(k)), Ok(value), "page {k}");
    }
}

/// Document 01's state e (D = 2, S = 4): pages 0 to 15 lie in slots 28 to 43 of segment 0, the odd ones also in the
/// same slots of segment 1, and page 16 (key 263) in slot 29 of segment 0, over page 1. Stale records have the value 1.
fn state_e() -> Vec<u64> {
    let mut words = vec![0; 520];
    format(&mut words, 2, 4, ALL).unwrap();
    for k in 0..16 {
        assert_eq!(put(&mut words, page(k), 1, ALL), Ok(2));
    }
    assert_eq!(enter(&mut words, 16), 79);
    for k in 0..16 {
        assert_eq!(enter(&mut words, k), 1);
    }
    words
}

/// Slots and pages of segment 1 in state e.
fn odd_pages() -> Vec<(usize, u64)> {
    (1..16).step_by(2).map(|k| (28 + k as usize, k)).collect()
}

/// The stores that bring pages to segment 0, each given with its slot: value, then key.
fn copies(pages: &[(usize, u64)]) -> Vec<Store> {
    let copy = |&(slot, k): &(usize, u64)| [(9 + 2 * slot, 10 * page(k)), (8 + 2 * slot, page(k))];
    pages.iter().flat_map(copy).collect()
}

/// Makes a merge with every allowance. Its stores are those of `slots`, then those of `entries`.
fn cut_everywhere(words: &[u64], key: u64, slots: &[Store], entries: &[Store], present: &[u64]) {
    let due = [slots, entries].concat();
    let with = |made: usize| {
        let mut after = words.to_vec();
        due[..made].iter().for_each(|&(at, word)| after[at] = word);
        after
    };
    for n in 0..=due.len() {
        let stores = n as u32;
        let answer = if n < due.len() { Err(Refused { refusal: Refusal::CutOff, stores }) } else { Ok(stores) };
        let mut after = words.to_vec();
        assert_eq!(merge(&mut after, key, stores), answer);
        assert_eq!(after, with(n), "allowance {n}");
        check_pages(&after, present);

        // With the first entry stored a mend stores all others that are due; before, it has nothing to do.
        let finished = if n <= slots.len() { n } else { due.len() };
        assert_eq!(mend(&mut after, ALL), Ok((finished - n) as u32), "allowance {n}");
        assert_eq!(after, with(finished), "allowance {n}");
        check_pages(&after, present);
    }
}

#[test]
fn a_merge_waits_for_room_and_gives_its_segment_back() {
    let mut words = state_e();
    // Slot 29 has page 16 on the left and page 1 on the right.
    let before = words.clone();
    assert_eq!(merge(&mut words, page(0), ALL), refused(Refusal::BothLive));
    assert_eq!(words, before);

    // Page 3 is stale in slot 31 of segment 0: once it is gone on the right, its key word there becomes 0.
    take(&mut words, 1);
    take(&mut words, 3);
    let slots = [vec![(70, 0)], copies(&odd_pages()[2..])].concat();
    let present = [0, 2, 4, 5, 6, 7, 8, 9, 10, 11, 12, 13, 14, 15, 16];
    cut_everywhere(&words, page(0), &slots, &[(2, entry(0, 0)), (3, entry(0, 0))], &present);

    // The depth of the directory stays 1. Page 3 takes slot 31; page 1 needs a split, with no doubling and with seven
    // pages to copy, and the smallest segment that no entry names is 1 again.
    assert_eq!(merge(&mut words, page(0), ALL), Ok(15));
    assert_eq!(words[0] % 256, 1);
    assert_eq!((enter(&mut words, 3), words[70]), (2, page(3)));
    assert_eq!((enter(&mut words, 1), words[192]), (64 + 7 + 2 + 2, page(1)));
    assert_eq!(words[2..4], [entry(0, 1), entry(1, 1)]);
    check_pages(&words, &Vec::from_iter(0..=16));
}

/// State e with segment 0 split again: pages 18, 20, .. 30 have taken the stale slots 31, 33, .. 43; page 32 then
/// doubles the directory to depth 2 and takes slot 30, over page 2.
fn index_of_three_blocks() -> Vec<u64> {
    let mut words = state_e();
    for k in (18..=30).step_by(2) {
        assert_eq!(enter(&mut words, k), 2);
    }
    assert_eq!(enter(&mut words, 32), 4 + 1 + 72 + 2 + 2);
    assert_eq!(words[4..8], [entry(0, 2), entry(2, 2), entry(1, 1), entry(1, 1)]);
    words
}

#[test]
fn merges_go_on_to_the_shallowest_block() {
    let mut words = index_of_three_blocks();
    // The buddy of the right block is split further. Slot 30 has page 32 on the left and page 2 on the right.
    assert_eq!(merge(&mut words, page(1), ALL), refused(Refusal::NoBuddy));
    assert_eq!(merge(&mut words, page(2), ALL), refused(Refusal::BothLive));
    take(&mut words, 32);
    let moved = [(30, 2), (31, 18), (34, 6), (35, 22), (38, 10), (39, 26), (42, 14), (43, 30)];
    let entries = [4, 5].map(|at| (at, entry(0, 1)));
    let present: Vec<u64> = (0..16).chain((16..=30).step_by(2)).collect();
    cut_everywhere(&words, page(2), &copies(&moved), &entries, &present);
    assert_eq!(merge(&mut words, page(2), ALL), Ok(18));

    // Each block has two entries now. Key 17 stands for the right one and is not stored.
    assert_eq!(merge(&mut words, 17, ALL), refused(Refusal::BothLive));
    for k in (16..=30).step_by(2) {
        take(&mut words, k);
    }
    let entries = [4, 5, 6, 7].map(|at| (at, entry(0, 0)));
    cut_everywhere(&words, 17, &copies(&odd_pages()), &entries, &Vec::from_iter(0..16));
    assert_eq!(merge(&mut words, 17, ALL), Ok(20));
    assert_eq!(merge(&mut words, 17, ALL), refused(Refusal::NoBuddy));

    // Segments 1 and 2 are free. A split takes 1, with four entries and no doubling.
    assert_eq!((enter(&mut words, 16), words[66]), (72 + 4 + 2, page(16)));
    assert_eq!(words[4..8], [entry(0, 1), entry(0, 1), entry(1, 1), entry(1, 1)]);
    check_pages(&words, &Vec::from_iter(0..=16));
}

#[test]
fn refusals_come_in_order_and_make_no_store() {
    let expect = |words: &[u64], key: u64, refusal: Refusal| {
        let mut after = words.to_vec();
        assert_eq!(merge(&mut after, key, ALL), refused(refusal));
        assert_eq!(after, words);
    };
    let mut words = vec![0; 520];
    expect(&words, 0, Refusal::NoStore);
    format(&mut words, 2, 4, ALL).unwrap();
    expect(&words, page(0), Refusal::NoBuddy);
    expect(&words, 0, Refusal::NoKey);

    // State e allowed 76 stores: the entries are (0, depth 0) and (1, depth 1), so page 0 has no buddy either.
    for k in 0..16 {
        enter(&mut words, k);
    }
    put(&mut words, page(16), 2630, 76).unwrap_err();
    expect(&words, page(0), Refusal::Unmended);
    expect(&words, page(1), Refusal::Unmended);

    // A merge that is cut off with its first entry stored. Then a leader that names no segment, with a block beside it
    // that has no buddy.
    let mut words = state_e();
    take(&mut words, 16);
    merge(&mut words, page(0), 17).unwrap_err();
    expect(&words, page(0), Refusal::Unmended);
    let mut words = index_of_three_blocks();
    words[5] = entry(4, 2);
    expect(&words, page(1), Refusal::Broken);
}

/// Key 16,407 folds to 16,391, with a first route bit of 0, and 16,391 folds to 16,407: so the one is live on the left
/// and stale on the right, the other live on the right and stale on the left.
const LEFT: u64 = 16407;
const RIGHT: u64 = 16391;

/// Two blocks with nothing but one slot on each side. Some of these arrays no call leaves.
#[test]
fn each_slot_is_joined_by_its_two_records() {
    // The keys on the left and on the right; the answer, with two entries stored; the record left, key and value.
    let table = [
        ([0, 0], Ok(2), [0, 1]),
        ([0, LEFT], Ok(2), [0, 1]),
        ([0, RIGHT], Ok(4), [RIGHT, 2]),
        ([LEFT, 0], Ok(2), [LEFT, 1]),
        ([LEFT, LEFT], Ok(2), [LEFT, 1]),
        ([LEFT, RIGHT], refused(Refusal::BothLive), [LEFT, 1]),
        ([RIGHT, 0], Ok(3), [0, 1]),
        ([RIGHT, LEFT], Ok(3), [0, 1]),
        ([RIGHT, RIGHT], Ok(4), [RIGHT, 2]),
    ];
    for (slot, (keys, answer, record)) in (0..64).flat_map(|slot| table.map(|row| (slot, row))) {
        let (left, right) = (8 + 2 * slot, 136 + 2 * slot);
        let mut words = state_e();
        words[8..264].fill(0);
        words[left..left + 2].copy_from_slice(&[keys[0], 1]);
        words[right..right + 2].copy_from_slice(&[keys[1], 2]);
        let mut due = words.clone();
        due[left..left + 2].copy_from_slice(&record);
        if answer.is_ok() {
            due[2..4].fill(entry(0, 0));
        }
        assert_eq!(merge(&mut words, 7, ALL), answer, "keys {keys:?} in slot {slot}");
        assert_eq!(words, due, "keys {keys:?} in slot {slot}");
    }
}

/// A damaged array: both blocks of state e name segment 0. By the right block's bits seven odd pages are live there:
/// they are stored where they are.
#[test]
fn a_segment_is_merged_with_itself() {
    let mut words = state_e();
    words[3] = entry(0, 1);
    let mut due = words.clone();
    due[2..4].fill(entry(0, 0));
    assert_eq!(merge(&mut words, page(0), ALL), Ok(7 * 2 + 2));
    assert_eq!(words, due);
}

/// A directory of depth 12 is merged into one block. The last merge has both the most records and the most entries.
#[test]
fn the_largest_merge() {
    let mut words = vec![0; 8192 + 128 * 13];
    format(&mut words, 12, 13, ALL).unwrap();
    // Twelve route bits of these keys are 0, so the seventeenth of their window is refused behind twelve splits.
    let deep: Vec<u64> = (0..=16).map(|i| page(i << 26)).collect();
    for &key in &deep[..16] {
        put(&mut words, key, 0, ALL).unwrap();
    }
    assert_eq!(put(&mut words, deep[16], 0, ALL).unwrap_err().refusal, Refusal::TooDeep);
    // Segment 1 has the keys whose first route bit is 1. It gets four for each bucket, and the others go.
    for key in (0..16).flat_map(|bucket| [16, 48, 80, 112].map(|route| route + bucket)) {
        assert_eq!(put(&mut words, key, 10 * key, ALL), Ok(2));
    }
    for &key in &deep[..16] {
        assert_eq!(remove(&mut words, key, ALL), Ok(Some(1)));
    }
    let mut any_merge = || (0..1 << 12).find_map(|i| merge(&mut words, 16 * i + 1, ALL).ok());
    let merges: Vec<u32> = (0..13).map_while(|_| any_merge()).collect();
    assert_eq!(merges, [2, 4, 8, 16, 32, 64, 128, 256, 512, 1024, 2048, 4224]);
    assert!(words[4096..8192].iter().all(|&word| word == entry(0, 0)));
    for key in (0..16).flat_map(|bucket| [16, 48, 80, 112].map(|route| route + bucket)) {
        assert_eq!(get(&words, key), Ok(Some(10 * key)));
    }
}
