//! How much one number can change (document 02, wish 5): an allowance larger by one, or another value of a put, changes
//! at most one word of the array left behind.
use crate::made;
use crate::model::{Answer, Call, CUT_OFF, DONE};

/// How often the arrays left differed in one word, and in none.
#[derive(Default)]
pub struct Counts {
    allowance: [u64; 2],
    value: [u64; 2],
    /// Of the puts that differ in a word: how many were cut off between value and key.
    between: u64,
}

/// What the compiled index answers and leaves of a copy of the array.
fn left(words: &[u64], call: Call) -> (Answer, Vec<u64>) {
    let mut after = words.to_vec();
    (made(&mut after, &mut [], call), after)
}

/// The one address at which two arrays differ, or none.
fn apart(x: &[u64], y: &[u64], call: Call) -> Option<usize> {
    assert_eq!(x.len(), y.len());
    let addresses: Vec<usize> = (0..x.len()).filter(|&i| x[i] != y[i]).collect();
    assert!(addresses.len() <= 1, "{call:?}: one number has changed the words {addresses:?}");
    addresses.first().copied()
}

/// The call with an allowance larger by one, if it has one that can be.
fn one_more(call: Call) -> Option<Call> {
    let more = |n: u32| n.checked_add(1);
    match call {
        Call::Format(d, s, n) => more(n).map(|n| Call::Format(d, s, n)),
        Call::Put(key, value, n) => more(n).map(|n| Call::Put(key, value, n)),
        Call::Remove(key, n) => more(n).map(|n| Call::Remove(key, n)),
        Call::Mend(n) => more(n).map(Call::Mend),
        Call::Merge(key, n) => more(n).map(|n| Call::Merge(key, n)),
        Call::Get(..) | Call::List | Call::ListBlock(..) => None,
    }
}

/// Two puts that differ in the value. The word is the value word of the slot with the key, once that is stored.
fn compare_values(words: &[u64], key: u64, values: [u64; 2], allowance: u32, counts: &mut Counts) {
    let [put, other] = values.map(|value| Call::Put(key, value, allowance));
    let ((answer, x), (second, y)) = (left(words, put), left(words, other));
    assert_eq!(answer, second, "{put:?}: the answer differs with another value");
    let address = apart(&x, &y, put);
    counts.value[address.is_some() as usize] += 1;
    if let Some(at) = address {
        assert_eq!([x[at], y[at]], values);
        match answer.code {
            DONE => assert_eq!((x[at - 1], y[at - 1]), (key, key)),
            code => assert_eq!(code, CUT_OFF),
        }
        counts.between += (answer.code == CUT_OFF) as u64;
    }
}

/// Makes the call on copies of the array, with one number more or, of a put, with another value.
pub fn compare(words: &[u64], call: Call, other: u64, counts: &mut Counts) {
    if let Some(more) = one_more(call) {
        let address = apart(&left(words, call).1, &left(words, more).1, call);
        counts.allowance[address.is_some() as usize] += 1;
    }
    if let Call::Put(key, value, allowance) = call {
        compare_values(words, key, [value, other], allowance, counts);
    }
}

/// Prints the counts; whether each of them came about.
pub fn report(counts: &Counts) -> bool {
    let Counts { allowance, value, between } = counts;
    println!("one store more: no word changed {}, one word {}", allowance[0], allowance[1]);
    println!("another value: no word changed {}, one word {}, cut between value and key {between}", value[0], value[1]);
    allowance.iter().chain(value).all(|&n| n > 0) && *between > 0
}
