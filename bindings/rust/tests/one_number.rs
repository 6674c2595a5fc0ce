//! How much one number can change (document 02, wish 5): two calls on one array that differ in the allowance by one, or
//! in the value of a put. Figures are worked out from documents 01 and 02.
use page_index::{format, mend, put, remove, Refusal, Refused};

const ALL: u32 = u32::MAX;

/// What a call that changes the array answers: the number of stores, `None` for absent, or the refusal.
type Answer = Result<Option<u32>, Refused>;

/// Sixteen pages that fill the window of key 263, in an index of D = 2 and S = 4: a put of 263 splits, in 79 stores.
fn before_the_split() -> Vec<u64> {
    let mut words = vec![0; 520];
    format(&mut words, 2, 4, ALL).unwrap();
    for key in (0..16).map(|i| 7 + 16 * i) {
        put(&mut words, key, 10 * key, ALL).unwrap();
    }
    words
}

/// The answer of a call on a copy of the array, and what it leaves.
fn left(words: &[u64], call: impl Fn(&mut [u64]) -> Answer) -> (Answer, Vec<u64>) {
    let mut after = words.to_vec();
    (call(&mut after), after)
}

/// The addresses at which two arrays differ.
fn apart(x: &[u64], y: &[u64]) -> Vec<usize> {
    assert_eq!(x.len(), y.len());
    (0..x.len()).filter(|&i| x[i] != y[i]).collect()
}

/// The addresses that the allowances 0 and 1, 1 and 2, .. up to `last` and one more set apart, at most one each.
fn apart_by_one_more(words: &[u64], last: u32, call: impl Fn(&mut [u64], u32) -> Answer) -> Vec<Option<usize>> {
    let under = |allowance: u32| left(words, |after| call(after, allowance)).1;
    let one = |allowance: u32| {
        let addresses = apart(&under(allowance), &under(allowance + 1));
        assert!(addresses.len() <= 1, "allowances {allowance} and one more set apart {addresses:?}");
        addresses.first().copied()
    };
    (0..=last).map(one).collect()
}

/// The addresses that the values `v` and `w` set apart in a put: at most one. Answers are the same.
fn apart_by_value(words: &[u64], key: u64, v: u64, w: u64, allowance: u32) -> Option<usize> {
    let with = |value: u64| left(words, |after| put(after, key, value, allowance).map(Some));
    let ((answer, first), (other, second)) = (with(v), with(w));
    assert_eq!(answer, other);
    let addresses = apart(&first, &second);
    assert!(addresses.len() <= 1, "values {v} and {w} set apart {addresses:?}");
    addresses.first().copied()
}

#[test]
fn one_store_more_changes_at_most_one_word() {
    let mut words = before_the_split();
    // A key that stands in slot 34 of segment 1, which is free: store number 41 clears it.
    words[204] = 9;
    let addresses = apart_by_one_more(&words, 80, |after, n| put(after, 263, 2630, n).map(Some));
    for (allowance, address) in [(2, 0), (39, 202), (40, 204), (75, 3), (76, 2), (77, 67), (78, 66)] {
        assert_eq!(addresses[allowance], Some(address), "allowance {allowance}");
    }
    assert_eq!(addresses[79..], [None, None]);

    assert_eq!(apart_by_one_more(&words, 2, |after, n| remove(after, 7, n)), [Some(64), None, None]);
    let formatted = apart_by_one_more(&words, 68, |after, n| format(after, 2, 4, n).map(Some));
    assert_eq!((formatted[0], formatted[30], formatted[66], formatted[67]), (Some(0), Some(64), Some(0), None));

    // A split that is cut between its two entries, and its mend.
    put(&mut words, 263, 2630, 76).unwrap_err();
    assert_eq!(apart_by_one_more(&words, 2, |after, n| mend(after, n).map(Some)), [Some(3), None, None]);
    assert_eq!(apart_by_one_more(&words, 80, |after, n| put(after, 263, 2630, n).map(Some)), [None; 81]);
}

#[test]
fn another_value_changes_at_most_one_word() {
    let mut words = before_the_split();
    for (v, w) in [(1, 2), (0, u64::MAX)] {
        for allowance in 0..80 {
            let address = if allowance < 78 { None } else { Some(67) };
            assert_eq!(apart_by_value(&words, 263, v, w, allowance), address, "allowance {allowance}");
        }
        assert_eq!(apart_by_value(&words, 7, v, w, ALL), Some(65));
        assert_eq!(apart_by_value(&words, 0, v, w, ALL), None);
    }

    let cut = put(&mut words, 263, 2630, 76).unwrap_err();
    assert_eq!((cut.refusal, cut.stores), (Refusal::CutOff, 76));
    assert_eq!(apart_by_value(&words, 263, 1, 2, ALL), None);
}
