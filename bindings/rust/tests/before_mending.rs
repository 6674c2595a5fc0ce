//! Lookups before mending (document 02, wish 9): calls cut off at every store, and the mends behind them too. Figures
//! are worked out from documents 01 and 02.
use page_index::board::{self, Job};
use page_index::{format, get, list, list_block, mend, merge, put, remove, Refusal, Refused};

const ALL: u32 = u32::MAX;

type Answers = Vec<Result<Option<u64>, Refused>>;

/// What lookups say of the keys below 1,050, 0 among them.
fn answers(words: &[u64]) -> Answers {
    (0..1050).map(|key| get(words, key)).collect()
}

fn cut_off(stores: u32) -> Refused {
    Refused { refusal: Refusal::CutOff, stores }
}

/// An index of D = 2, S = 4 whose directory has two entries, each of a block of its own: the put of key 263 has split
/// the one block of pages 7, 23, .. 247.
fn two_blocks() -> Vec<u64> {
    let mut words = vec![0; 520];
    format(&mut words, 2, 4, ALL).unwrap();
    for i in 0..16 {
        put(&mut words, 7 + 16 * i, 100 + i, ALL).unwrap();
    }
    put(&mut words, 263, 5, ALL).unwrap();
    words
}

/// One with a single block of four entries: a put of key 1030 has doubled the directory twice before it was refused, and two
/// merges have joined the blocks. Sixteen pages, 11, 27, .. 251, fill the window of key 11.
fn one_block_of_four_entries() -> Vec<u64> {
    let mut words = vec![0; 520];
    format(&mut words, 2, 4, ALL).unwrap();
    for i in 0..16 {
        put(&mut words, 7 + 64 * i, 200 + i, ALL).unwrap();
    }
    assert_eq!(put(&mut words, 1030, 1, ALL), Err(Refused { refusal: Refusal::TooDeep, stores: 140 }));
    assert_eq!((merge(&mut words, 7, ALL), merge(&mut words, 7, ALL)), (Ok(2), Ok(4)));
    for i in 0..16 {
        put(&mut words, 11 + 16 * i, 100 + i, ALL).unwrap();
    }
    words
}

/// What a put, a remove, a merge and the listings answer where an entry awaits mending; they change nothing.
fn check_the_others_wait(words: &[u64]) {
    let refused = Refused { refusal: Refusal::Unmended, stores: 0 };
    let (mut after, mut records) = (words.to_vec(), [0; 128]);
    assert_eq!(put(&mut after, 8, 1, ALL), Err(refused));
    assert_eq!(remove(&mut after, 7, ALL), Err(refused));
    assert_eq!(merge(&mut after, 7, ALL), Err(refused));
    assert_eq!(list(&after, &mut records), Err(refused));
    assert_eq!(list_block(&after, 0, &mut records), Err(refused));
    assert_eq!((after, records), (words.to_vec(), [0; 128]));
}

/// Looks pages up in an index that awaits a mend, then behind a mend cut off at every store, then mended. Answers the
/// number of stores of the mend.
fn check_mends(words: &[u64], told: &Answers) -> u32 {
    assert_eq!(&answers(words), told);
    let mut mended = words.to_vec();
    let stores = mend(&mut mended, ALL).unwrap();
    assert_eq!(&answers(&mended), told);
    if stores > 0 {
        check_the_others_wait(words);
    }
    for allowance in 0..stores {
        let mut cut = words.to_vec();
        assert_eq!(mend(&mut cut, allowance), Err(cut_off(allowance)));
        assert_eq!(&answers(&cut), told);
        check_the_others_wait(&cut);
        assert_eq!(mend(&mut cut, ALL), Ok(stores - allowance));
        assert_eq!(cut, mended);
    }
    stores
}

/// Makes a call with every allowance below the stores that it makes, which are `due`. Answers the stores of each mend.
fn cut_everywhere(words: &[u64], due: u32, call: impl Fn(&mut [u64], u32) -> Result<u32, Refused>) -> Vec<u32> {
    assert_eq!(call(&mut words.to_vec(), ALL), Ok(due));
    let told = answers(words);
    let cut = |allowance| {
        let mut after = words.to_vec();
        assert_eq!(call(&mut after, allowance), Err(cut_off(allowance)));
        check_mends(&after, &told)
    };
    (0..due).map(cut).collect()
}

#[test]
fn a_cut_put_shows_nothing_before_the_mend() {
    let mut words = two_blocks();
    for key in (7..).step_by(32).take(16) {
        put(&mut words, key, key, ALL).unwrap();
    }
    // The left block has pages 7, 39, .. 487. One more doubles the directory (5 stores), is copied (72) and updates two
    // entries, of which the first is taken back by a mend.
    let mends = cut_everywhere(&words, 81, |words, n| put(words, 519, 6, n));
    assert_eq!(mends.iter().sum::<u32>(), 1);
    assert_eq!(mends[5 + 72 + 1], 1);
}

#[test]
fn each_entry_of_a_cut_split_is_looked_through() {
    // Copy step 72, four entries from right to left, value and key. A mend takes one, two, three entries back.
    let mends = cut_everywhere(&one_block_of_four_entries(), 78, |words, n| put(words, 267, 6, n));
    assert_eq!(mends[72..], [0, 1, 2, 3, 0, 0]);
    assert_eq!(mends[..72], [0; 72]);
}

#[test]
fn a_cut_merge_and_a_cut_remove_show_nothing_before_the_mend() {
    let mut words = one_block_of_four_entries();
    put(&mut words, 267, 6, ALL).unwrap();
    assert_eq!(cut_everywhere(&words, 1, |words, n| remove(words, 267, n).map(|made| made.unwrap())), [0]);
    remove(&mut words, 267, ALL).unwrap();
    // Eight records in 16 stores, then four entries from left to right. From the first on a mend stores the others.
    let mends = cut_everywhere(&words, 20, |words, n| merge(words, 11, n));
    assert_eq!(mends, [[0; 17].as_slice(), &[3, 2, 1]].concat());
}

/// A job of January.
fn job(number: u64) -> Job {
    Job { year: 2026, month: 1, number }
}

/// The board's lines of the year, and what reads say of the jobs of January.
fn board_answers(words: &[u64]) -> (Vec<u8>, Answers) {
    let mut lines = vec![0; 4096];
    let bytes = board::print(words, 2026, &mut lines).unwrap();
    lines.truncate(bytes);
    (lines, (0..4096).map(|number| board::read(words, job(number))).collect())
}

#[test]
fn the_board_reads_and_prints_before_the_mend() {
    let mut words = vec![0; 520];
    format(&mut words, 2, 4, ALL).unwrap();
    for i in 0..16 {
        board::set(&mut words, job(7 + 16 * i), i, ALL).unwrap();
    }
    let told = board_answers(&words);
    let mut mended = 0;
    for allowance in 0..79 {
        let mut cut = words.clone();
        assert_eq!(board::set(&mut cut, job(263), 16, allowance), Err(cut_off(allowance)));
        assert_eq!(board_answers(&cut), told, "allowance {allowance}");
        mended += mend(&mut cut, ALL).unwrap();
        assert_eq!(board_answers(&cut), told, "allowance {allowance}");
    }
    assert_eq!((mended, board::set(&mut words, job(263), 16, ALL)), (1, Ok(79)));
}
