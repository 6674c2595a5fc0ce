//! The order of a list, and its blocks one by one, with figures worked out from documents 01 and 02.
use page_index::{blocks, format, list, list_block, put, ListedBlock, Refusal, Refused, BLOCK_WORDS};

const ALL: u32 = u32::MAX;

/// Sixteen keys of bucket 7 and route 000, which fill their window, slots 28 to 43: 7, 135, .. 903, which are their
/// own folded keys, and 1030, 1158, .. 1926, whose folded keys are larger by one.
fn keys_of_one_window() -> impl Iterator<Item = u64> {
    (0..8).map(|i| 7 + 128 * i).chain((0..8).map(|i| 1030 + 128 * i))
}

/// An index of D = 3 and S = 4. From the left its blocks have segments 0, 3, 2, 1 and depths 3, 3, 2, 1.
fn index_of_four_blocks() -> Vec<u64> {
    let mut words = vec![0; 16 + 128 * 4];
    format(&mut words, 3, 4, ALL).unwrap();
    for key in keys_of_one_window() {
        put(&mut words, key, 10 * key, ALL).unwrap();
    }
    // A seventeenth key of that window is refused after three splits, of 69, 71 and 75 stores.
    let refused = put(&mut words, 2053, 20530, ALL).unwrap_err();
    assert_eq!((refused.refusal, refused.stores), (Refusal::TooDeep, 215));
    for key in [67, 449, 37, 146, 25] {
        assert_eq!(put(&mut words, key, 10 * key, ALL), Ok(2));
    }
    words
}

/// Document 02, wish 3: records come block by block from the left of the directory, and by rising slot
/// number within a segment.
#[test]
fn records_come_from_the_left_and_by_rising_slot_number() {
    let words = index_of_four_blocks();
    let entry = |segment: u64, depth: u64| segment | depth << 32;
    let (third, fourth) = (entry(2, 2), entry(1, 1));
    assert_eq!(words[8..16], [entry(0, 3), entry(3, 3), third, third, fourth, fourth, fourth, fourth]);

    // Segment 0 has the sixteen, segment 3 slots 4 and 12, segment 2 slot 20, segment 1 slots 8 and 36.
    let keys = keys_of_one_window().chain([449, 67, 37, 146, 25]);
    let records: Vec<u64> = keys.flat_map(|key| [key, 10 * key]).collect();
    let (mut first, mut second) = ([1; 50], [2; 50]);
    assert_eq!(list(&words, &mut first), Ok(21));
    assert_eq!(list(&words, &mut second), Ok(21));
    assert_eq!(first[..42], records);
    assert_eq!(first[..42], second[..42]);
    assert_eq!((&first[42..], &second[42..]), (&[1; 8][..], &[2; 8][..]));
}

fn refused(refusal: Refusal) -> Refused {
    Refused { refusal, stores: 0 }
}

/// The keys of each block of that index from the left, with its index and the next one's.
fn four_blocks() -> [(u64, Vec<u64>, Option<u64>); 4] {
    [
        (0, keys_of_one_window().collect(), Some(1)),
        (1, vec![449, 67], Some(2)),
        (2, vec![37], Some(4)),
        (4, vec![146, 25], None),
    ]
}

/// Document 02, wish 7: the call lists the one block led at the index, and says the next block's index or that it was
/// the last.
#[test]
fn one_block_is_listed_at_its_index() {
    let words = index_of_four_blocks();
    for (index, keys, next) in four_blocks() {
        let records: Vec<u64> = keys.iter().flat_map(|&key| [key, 10 * key]).collect();
        // Just the words needed, the words that are always enough, and more.
        for room in [records.len(), BLOCK_WORDS, 200] {
            let mut found = vec![1; room];
            assert_eq!(list_block(&words, index, &mut found), Ok(ListedBlock { records: keys.len(), next }));
            assert_eq!(found[..records.len()], records);
            assert!(found[records.len()..].iter().all(|&word| word == 1));
        }
        let mut short = vec![1; records.len() - 1];
        assert_eq!(list_block(&words, index, &mut short), Err(refused(Refusal::ShortList)));
        assert!(short.iter().all(|&word| word == 1));
    }
    // The whole list has no room where the one block has.
    assert_eq!(list(&words, &mut [0; 4]), Err(refused(Refusal::ShortList)));
    assert_eq!(list_block(&words, 1, &mut [0; 4]), Ok(ListedBlock { records: 2, next: Some(2) }));
}

/// Where the walk has no leader: within a block, at the directory's end and behind it, and where bits above those of an
/// index are lost. 16 comes before 10.
#[test]
fn no_block_is_listed_where_none_is_led() {
    let words = index_of_four_blocks();
    for index in [3, 5, 6, 7, 8, 9, 16, 1 << 16, 1 << 32, (1 << 32) + 4, 1 << 63, u64::MAX] {
        for room in [0, BLOCK_WORDS] {
            let mut found = vec![1; room];
            assert_eq!(list_block(&words, index, &mut found), Err(refused(Refusal::NoLeader)), "index {index}");
            assert!(found.iter().all(|&word| word == 1));
        }
    }
}

/// One block alone: with no record it needs no word, with 64 it needs 128.
#[test]
fn a_block_needs_128_words_at_most() {
    let mut words = vec![0; 8 + 128];
    format(&mut words, 2, 1, ALL).unwrap();
    assert_eq!(list_block(&words, 0, &mut []), Ok(ListedBlock { records: 0, next: None }));
    for key in 1..=64 {
        assert_eq!(put(&mut words, key, key, ALL), Ok(2));
    }
    assert_eq!(list_block(&words, 0, &mut [0; BLOCK_WORDS]), Ok(ListedBlock { records: 64, next: None }));
    assert_eq!(list_block(&words, 0, &mut [0; BLOCK_WORDS - 1]), Err(refused(Refusal::ShortList)));
    assert_eq!(list_block(&words, 1, &mut [0; BLOCK_WORDS]), Err(refused(Refusal::NoLeader)));
}

/// Joined from index 0 on, the answers are the full listing, in its order; there are as many as blocks.
#[test]
fn blocks_joined_are_the_full_listing() {
    let words = index_of_four_blocks();
    let mut whole = [0; 42];
    assert_eq!(list(&words, &mut whole), Ok(21));
    let parts: Vec<_> = blocks(&words).collect::<Result<_, _>>().unwrap();
    assert_eq!(parts.len(), 4);
    assert_eq!(parts.iter().flat_map(|block| block.words().to_vec()).collect::<Vec<_>>(), whole);
    for (block, (_, keys, _)) in parts.iter().zip(four_blocks()) {
        assert!(block.records().eq(keys.into_iter().map(|key| (key, 10 * key))));
    }
    let mut ended = blocks(&words);
    assert_eq!(ended.by_ref().count(), 4);
    assert!(ended.next().is_none());
}

/// 1, 3 and 4 come as for a list, at every index and before 16 and 10; they end a listing block by block.
#[test]
fn a_damaged_index_is_refused_once() {
    let whole = index_of_four_blocks();
    let deep = 4 << 32;
    for (at, word, refusal) in [(0, 0, Refusal::NoStore), (12, deep, Refusal::Broken), (15, 1, Refusal::Unmended)] {
        let mut words = whole.clone();
        words[at] = word;
        assert_eq!(list(&words, &mut []), Err(refused(refusal)));
        for index in [0, 1, 3, 8, u64::MAX] {
            let mut found = [1; BLOCK_WORDS];
            assert_eq!(list_block(&words, index, &mut found), Err(refused(refusal)), "index {index}");
            assert_eq!(list_block(&words, index, &mut []), Err(refused(refusal)));
            assert_eq!(found, [1; BLOCK_WORDS]);
        }
        let mut refusals = blocks(&words);
        assert_eq!(refusals.next(), Some(Err(refused(refusal))));
        assert!(refusals.next().is_none());
    }
    assert_eq!(blocks(&[]).next(), Some(Err(refused(Refusal::NoStore))));
}
