//! What the tool reads by itself against the calls of the library, on whole, cut and damaged arrays.
use crate::damage::Damage;
use crate::find::Found;
use crate::findings::Findings;
use crate::mending::Mending;
use crate::reading::{Shape, State};
use crate::restored::{restored, Restored};
use page_index::{format, get, list, mend, merge, put, remove, words_for, Refusal, ALL};
use std::collections::BTreeSet;
use std::hash::{BuildHasher, BuildHasherDefault, DefaultHasher};

/// Random numbers, the same at every run.
struct Random(u64);

impl Random {
    fn next(&mut self) -> u64 {
        self.0 += 1;
        BuildHasherDefault::<DefaultHasher>::default().hash_one(self.0)
    }

    fn below(&mut self, limit: u64) -> u64 {
        self.next() % limit
    }

    /// A key of few, so that windows fill and segments split; at times any.
    fn key(&mut self) -> u64 {
        match self.below(20) {
            0 => self.next(),
            1 => 1 + self.below(1 << 20) * 1024,
            _ => (12 + self.below(6)) % 16 + 16 * (1 + self.below(64)),
        }
    }
}

/// How often each kind of array came.
#[derive(Debug, Default)]
struct Seen {
    whole: usize,
    unmended: usize,
    broken: usize,
    no_store: usize,
    found: usize,
    absent: usize,
    get_broken: usize,
    stale: usize,
    stray: usize,
    changed: usize,
    out_of_range: usize,
    restored: usize,
}

/// An array that a run leaves whose last call was cut off.
fn run(random: &mut Random) -> Vec<u64> {
    let depth = 2 + random.below(4);
    let segments = 1 + random.below(1 << depth);
    let mut words = vec![random.next(); words_for(depth, segments).unwrap() + random.below(3) as usize];
    format(&mut words, depth, segments, ALL).unwrap();
    for _ in 0..random.below(400) {
        let (key, value) = (random.key(), random.next());
        match random.below(8) {
            0 => drop(remove(&mut words, key, ALL)),
            1 => drop(merge(&mut words, key, ALL)),
            _ => drop(put(&mut words, key, value, ALL)),
        }
    }
    cut_off(&mut words, random);
    words
}

/// Makes a split or a merge that is cut off among its last stores, those of entries; where few tries find one.
fn cut_off(words: &mut [u64], random: &mut Random) {
    for _ in 0..20 {
        let (key, merges) = (random.key(), random.below(4) == 0);
        let call = |words: &mut [u64], allowance| {
            if merges {
                merge(words, key, allowance)
            } else {
                put(words, key, 1, allowance)
            }
        };
        let stores = call(&mut words.to_vec(), ALL).unwrap_or(0);
        if stores > 8 {
            let _ = call(words, stores - random.below(8) as u32);
            return;
        }
    }
}

/// Spoils word 0, entries or slots, or takes the last words away.
fn damage(words: &mut Vec<u64>, random: &mut Random) {
    match random.below(8) {
        0 => words[0] ^= 1 << random.below(64),
        1 => words.truncate(random.below(words.len() as u64) as usize),
        2 => words[0] = 0,
        3 => words[0] ^= 3 << 32,
        4 => words[0] = words[0] >> 32 << 32 | random.below(6) << 16 | random.below(5) << 8 | random.below(5),
        _ => (),
    }
    // A record once more, in another slot.
    if let Some(slots) = words.len().checked_sub(256).filter(|slots| *slots >= 2 && random.below(2) == 0) {
        let [from, to] = [0; 2].map(|_| 128 + 2 * random.below(slots as u64 / 2) as usize);
        words.copy_within(from..from + 2, to);
    }
    for _ in 0..random.below(5) {
        if let Some(entry) = words.get_mut(1 + random.below(15) as usize) {
            *entry = random.below(6) | random.below(6) << 32;
        }
    }
}

/// The live records that the tool sees, in the order of its blocks and slots.
fn live(words: &[u64]) -> Result<Vec<u64>, Damage> {
    let shape = Shape::read(words)?;
    let blocks = shape.blocks(words)?;
    let slots = blocks.iter().flat_map(|block| shape.slots(words, block));
    Ok(slots.filter(|slot| slot.state == State::Live).flat_map(|slot| [slot.key, slot.value]).collect())
}

fn listed(words: &[u64]) -> Result<Vec<u64>, Refusal> {
    let mut records = vec![0; words.len()];
    let count = list(words, &mut records).map_err(|refused| refused.refusal)?;
    records.truncate(2 * count);
    Ok(records)
}

/// The records that the tool says no lookup finds: all that are listed, but one for each key that a lookup finds.
fn check_strays(words: &[u64], records: &[u64], seen: &mut Seen) {
    let shape = Shape::read(words).unwrap();
    let strays = Findings::of(words, &shape, &shape.blocks(words).unwrap()).strays.len();
    let keys: BTreeSet<u64> = records.chunks_exact(2).map(|record| record[0]).collect();
    let found = keys.iter().filter(|key| get(words, **key).unwrap().is_some()).count();
    assert_eq!(strays, records.len() / 2 - found);
    seen.stray += strays;
}

/// The lookups that the tool says a mend changes: of all keys that stand anywhere in the segments, by the whole answer. Of
/// a key for each entry, whether it is out of range.
fn check_mend(words: &[u64], mended: &[u64], seen: &mut Seen) {
    let shape = Shape::read(words).unwrap();
    let keys: BTreeSet<u64> = words[shape.segment_word(0)..shape.words()].iter().copied().step_by(2).collect();
    let changed = keys.iter().filter(|key| get(words, **key) != get(mended, **key)).count();
    let refused = (0..shape.entries()).filter(|index| get(words, leading_to(&shape, *index)).is_err()).count();
    let mending = Mending::of(words, &shape, &shape.blocks(words).unwrap());
    assert_eq!((mending.lookups, mending.out_of_range), (changed, refused));
    seen.changed += changed;
    seen.out_of_range += refused;
}

/// A key that leads to the entry at this index: below 1,024 where the directory has at most 64, so that it is its own
/// folded key.
fn leading_to(shape: &Shape, index: usize) -> u64 {
    let bit = |number: u32| (index as u64 >> (shape.depth - 1 - number) & 1) << (4 + number);
    (0..shape.depth).map(bit).sum::<u64>() + 1
}

/// What the tool says of a run's array whose word 0 has become 0: the word that was there, and as many records. A directory
/// that is one block of segment 0 has only zeros, as one that was never stored, and an older one may be taken for it.
fn check_restored(words: &[u64], seen: &mut Seen) {
    let shape = Shape::read(words).unwrap();
    let found = live(words).unwrap().len() / 2;
    let entries = &words[shape.entry_word(0)..shape.entry_word(shape.entries())];
    if found == 0 || shape.depth > 0 && entries.iter().all(|entry| *entry == 0) {
        return;
    }
    // A file of ours has just these words.
    let mut lost = words[..shape.words()].to_vec();
    lost[0] = 0;
    assert_eq!(restored(&lost), Some(Restored { shape, live: found }));
    seen.restored += 1;
}

/// What the tool says of the array, as the listing would.
fn check_listing(words: &[u64], seen: &mut Seen) {
    let shown = live(words);
    let unequal = Shape::read(words)
        .and_then(|shape| shape.blocks(words))
        .map(|blocks| blocks.iter().map(|block| block.unequal).sum());
    match listed(words) {
        Ok(records) => {
            check_strays(words, &records, seen);
            assert_eq!((shown, unequal), (Ok(records), Ok(0usize)));
            seen.whole += 1;
        }
        Err(Refusal::Unmended) => {
            let mut mended = words.to_vec();
            assert_eq!(unequal, Ok(mend(&mut mended, ALL).unwrap() as usize));
            assert_eq!(shown.unwrap(), listed(&mended).unwrap());
            check_mend(words, &mended, seen);
            seen.unmended += 1;
        }
        Err(Refusal::Broken) => {
            assert!(matches!(shown, Err(Damage::EntryOutOfRange { .. } | Damage::LeaderNotAligned { .. })));
            seen.broken += 1;
        }
        Err(refusal) => {
            assert_eq!(refusal, Refusal::NoStore);
            assert!(Shape::read(words).is_err());
            seen.no_store += 1;
        }
    }
}

/// Where the tool finds a key, as a lookup would.
fn check_lookup(words: &[u64], key: u64, seen: &mut Seen) {
    let Ok(shape) = Shape::read(words) else {
        assert_eq!(get(words, key).unwrap_err().refusal, Refusal::NoStore);
        return;
    };
    match (get(words, key), Found::look(words, &shape, key)) {
        (Ok(value), Ok(found)) => {
            assert_eq!(found.hit(key).map(|slot| slot.value), value);
            seen.found += usize::from(value.is_some());
            seen.absent += usize::from(value.is_none());
            seen.stale += found.window.iter().filter(|slot| slot.state == State::Stale).count();
        }
        (Err(refused), Err(_)) => {
            assert_eq!(refused.refusal, Refusal::Broken);
            seen.get_broken += 1;
        }
        (got, found) => panic!("get says {got:?}, and the tool finds the entry: {}", found.is_ok()),
    }
}

#[test]
fn the_tool_reads_what_the_library_reads() {
    let mut random = Random(25);
    let mut seen = Seen::default();
    for round in 0..20_000 {
        let mut words = run(&mut random);
        if round % 2 == 1 {
            damage(&mut words, &mut random);
        } else {
            let shape = Shape::read(&words).unwrap();
            let findings = Findings::of(&words, &shape, &shape.blocks(&words).unwrap());
            assert!(!findings.is_damage(), "a run leaves no damage, and here {findings}");
            check_restored(&words, &mut seen);
        }
        check_listing(&words, &mut seen);
        for _ in 0..40 {
            check_lookup(&words, random.key(), &mut seen);
        }
    }
    println!("{seen:?}");
    let Seen { whole, unmended, broken, no_store, found, absent, get_broken, stale, stray, .. } = seen;
    let arrays = [whole, unmended, broken, no_store, stray, seen.changed, seen.out_of_range, seen.restored];
    for often in arrays.into_iter().chain([found, absent, get_broken, stale]) {
        assert!(often >= 100, "each kind of array and answer must come");
    }
}
